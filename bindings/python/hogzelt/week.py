"""The best seven days of a run: what stands in its records, and the week with the lowest total of
moves minus par (include/hogzelt.h, hogzelt_best_week)."""

from __future__ import annotations

import struct
from ctypes import byref, c_int64, c_uint64
from typing import Iterable, NamedTuple

from .calls import Refused, engine
from .records import RECORD, RECORD_POWER

WEEK_DAYS = 7
MOST_RECORDS = 4096
# what a record holds, each with the greatest number that it can be
FIELDS = (("day", 2**32 - 1), ("par", 2**16 - 1), ("moves", 2**16 - 1))
PACKED = struct.Struct("<IHH8x")


class Played(NamedTuple):
    """A day, its par and the moves that were made."""

    day: int
    par: int
    moves: int


class Week(NamedTuple):
    """The total of moves minus par over seven consecutive days, and the first of them."""

    total: int
    day: int


def run_bytes(played: Iterable[tuple[int, int, int]]) -> bytes:
    """The bytes of a run: 16 for each day, with its par and moves."""
    return b"".join(played_bytes(Played(*each)) for each in played)


def played_bytes(played: Played) -> bytes:
    for number, (name, most) in zip(played, FIELDS):
        if not 0 <= number <= most:
            raise ValueError(f"{name} is a number from 0 to {most}, not {number}")
    return PACKED.pack(*played)


def read_run(data: bytes) -> list[Played]:
    """The days of a run that is whole records."""
    return [Played(*each) for each in PACKED.iter_unpack(data)]


def best_week(run: bytes | Iterable[tuple[int, int, int]]) -> Week | None:
    """The seven neighbouring records with consecutive days that have the lowest total of moves
    minus par, the earliest where some have the same; None where there are no such seven."""
    data = bytes(run) if isinstance(run, (bytes, bytearray, memoryview)) else run_bytes(run)
    found, total, day = c_uint64(), c_int64(), c_uint64()
    refusal = engine().library.hogzelt_best_week(
        data, len(data), byref(found), byref(total), byref(day)
    )
    if refusal:
        raise Refused(refusal)
    return Week(total.value, day.value) if found.value else None


def explain_run(data: bytes) -> tuple[int | None, str]:
    """Why a run is refused: the record that shows it, from 0, or none, and a sentence."""
    if len(data) > MOST_RECORDS * RECORD:
        return None, f"a run has at most {MOST_RECORDS:,} records, and this is longer"
    if len(data) & (RECORD - 1):
        return None, f"{len(data):,} bytes are no whole records of {RECORD}"
    for i in range(len(data) >> RECORD_POWER):
        if any(data[RECORD * i + 8 : RECORD * (i + 1)]):
            return i, "bytes 8 to 15 must be 0"
    days = [each.day for each in read_run(data)]
    for i in range(1, len(days)):
        if days[i] <= days[i - 1]:
            return i, f"day {days[i]} is not above the one before, {days[i - 1]}"
    return None, "it is accepted"
