"""The lines of a file: what is made of each is printed in order, and several processes may work."""

from __future__ import annotations

import os
import sys
from collections import Counter
from typing import Callable, Iterator, Sequence, Tuple

from ..calls import engine
from .options import Options, Usage
from .source import Given

CHUNK = 1000

# some lines behind the number of the first, from 0; what is printed for them, and what is counted
Chunk = Tuple[int, Sequence[str]]
Work = Callable[[Chunk], "tuple[str, Counter[str]]"]


def lines_of(given: Given) -> list[str]:
    text = given.text.replace("\r\n", "\n")
    return text.removesuffix("\n").split("\n") if text else []


def is_left_out(line: str) -> bool:
    """Whether a line is blank or a comment."""
    return not line or line.isspace() or line.lstrip()[0] == "#"


def print_lines(lines: Sequence[str], work: Work, jobs: int) -> Counter[str]:
    """Prints what the work gives for each chunk of lines, in order, and adds up what it counts."""
    counts: Counter[str] = Counter()
    progress = Progress(len(lines))
    for done, (printed, counted) in enumerate(results(lines, work, jobs), 1):
        sys.stdout.write(printed)
        counts += counted
        progress.show(done * CHUNK)
    progress.end()
    return counts


def jobs_of(options: Options) -> int:
    named = options.get("jobs")
    if named is None:
        return len(os.sched_getaffinity(0)) if hasattr(os, "sched_getaffinity") else 1
    if not named.isdigit() or not 1 <= int(named) <= 256:
        raise Usage(f"--jobs takes a number from 1 to 256, not {named!r}")
    return int(named)


def results(lines: Sequence[str], work: Work, jobs: int) -> Iterator[tuple[str, Counter[str]]]:
    """What the work gives for each chunk of lines, in order."""
    chunks = [(at, lines[at : at + CHUNK]) for at in range(0, len(lines), CHUNK)]
    engine()  # the library is loaded, and built where it is missing, before there are processes
    if jobs == 1 or len(chunks) < 2 or not hasattr(os, "fork"):
        yield from map(work, chunks)
        return
    from multiprocessing import get_context
    from signal import SIG_IGN, SIGINT, signal

    jobs = min(jobs, len(chunks))
    with get_context("fork").Pool(jobs, initializer=signal, initargs=(SIGINT, SIG_IGN)) as pool:
        yield from pool.imap(work, chunks)


class Progress:
    """A count on standard error where that is a terminal."""

    def __init__(self, total: int) -> None:
        self.total = total
        self.shown = sys.stderr.isatty()

    def show(self, done: int) -> None:
        if self.shown:
            sys.stderr.write(f"\r{min(done, self.total):,} of {self.total:,} lines")
            sys.stderr.flush()

    def end(self) -> None:
        if self.shown:
            sys.stderr.write("\n")
