"""hogzelt week: the best seven days of a run."""

from __future__ import annotations

import re
from typing import Sequence

from ..calls import Refused
from ..records import Fault
from ..show import counted
from ..week import FIELDS, WEEK_DAYS, Played, Week, best_week, explain_run, read_run, run_bytes
from .files import write_whole
from .options import Options
from .source import Given, read_file


def week(options: Options) -> int:
    """The best week of a text, a line for each day, or of the bytes of a run."""
    given = read_file(options, "week")
    if b"\0" in given.data:
        data, lines = given.data, None
    else:
        played, lines = read_lines(given)
        data = run_bytes(played)
    try:
        found = best_week(data)
    except Refused as bad:
        raise Fault(f"{given.label}{refusal_text(bad.number, data, lines)}") from None
    output = options.get("output")
    if output:
        write_whole(output, data, given.name)
    print(quiet_text(found) if "quiet" in options else week_text(found, read_run(data)))
    return 0


def read_lines(given: Given) -> tuple[list[Played], list[int]]:
    """The days of a text, and the number of the line of each."""
    played, lines = [], []
    for number, line in enumerate(given.text.splitlines(), 1):
        words = re.findall(r"[^\s,;]+", line)
        if not line.strip() or line.lstrip().startswith("#") or is_heading(words, played):
            continue
        try:
            played.append(read_words(words))
        except Fault as bad:
            raise Fault(f"{given.label}line {number}: {bad}") from None
        lines.append(number)
    return played, lines


def is_heading(words: Sequence[str], played: Sequence[Played]) -> bool:
    """The names of the columns, before the first day."""
    names = [word.strip('"').lower() for word in words]
    return not played and names == [name for name, _ in FIELDS]


def read_words(words: Sequence[str]) -> Played:
    if len(words) != len(FIELDS):
        found = counted(len(words), "word")
        raise Fault(f"a line has a day, its par and the moves, and this has {found}")
    return Played(*(read_number(word, *field) for word, field in zip(words, FIELDS)))


def read_number(word: str, name: str, most: int) -> int:
    if not re.fullmatch(r"[0-9]{1,19}", word) or int(word) > most:
        raise Fault(f"{name} is a number from 0 to {most}, not {word!r}")
    return int(word)


def refusal_text(number: int, data: bytes, lines: Sequence[int] | None) -> str:
    """A refusal with its place: the line of a text, or the record of a run."""
    record, sentence = explain_run(data)
    if record is None:
        return f"refusal {number}: {sentence}"
    place = f"line {lines[record]}" if lines else f"record {record}"
    return f"{place}: refusal {number}: {sentence}"


def quiet_text(found: Week | None) -> str:
    return f"{found.total} {found.day}" if found else "none"


def week_text(found: Week | None, played: Sequence[Played]) -> str:
    if found is None:
        return f"no {WEEK_DAYS} consecutive days among {counted(len(played), 'day')}"
    days = [each for each in played if found.day <= each.day < found.day + WEEK_DAYS]
    moves, par = sum(each.moves for each in days), sum(each.par for each in days)
    return (f"days {found.day} to {found.day + WEEK_DAYS - 1}: total {found.total}"
            f" (moves {moves}, par {par})")
