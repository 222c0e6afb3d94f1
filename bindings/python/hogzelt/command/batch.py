"""hogzelt shorten of a file, one expression a line: the results in order, as text or as JSON."""

from __future__ import annotations

import json
import sys
from collections import Counter
from functools import partial
from itertools import count
from typing import NamedTuple, Tuple, Union

from ..calls import Engine, Refused, Sheet, engine
from ..fold import fold
from ..parser import Parsed, parse
from ..tokens import BadText
from .lines import Chunk, is_left_out, jobs_of, lines_of, print_lines
from .options import Options
from .report import accepted, refused, refused_line, sheet_text, variables_of
from .source import Given, Refusing, refusing, width_of

# what a line is read as, and what is found for it
Read = Union[Parsed, Refusing, None]
Found = Union[Tuple[int, Sheet], Refusing, None]


class Task(NamedTuple):
    """What is done with each line."""

    width: int
    rules: int
    passes: tuple[int, ...]
    folds: bool
    as_json: bool


def run_batch(given: Given, options: Options, rules: int, passes: tuple[int, ...]) -> int:
    """A line for each line of the file. What is refused is a comment line, so that the output can
    be read again; blank lines and lines that begin with # stay as they are."""
    task = Task(width_of(given, options), rules, passes, "fold" in options, "json" in options)
    lines = lines_of(given)
    counts = print_lines(lines, partial(run_chunk, task), jobs_of(options))
    if counts["refused"]:
        share = f"{counts['refused']:,} of {len(lines):,} lines"
        sys.stderr.write(f"hogzelt: {given.name}: {share} are refused\n")
    return 1 if counts["refused"] else 0


def run_chunk(task: Task, chunk: Chunk) -> tuple[str, Counter[str]]:
    """In three rounds, each over all lines: a call of the library clears some 100 KiB, and what the
    other rounds work on would leave the processor's caches at each line."""
    first, lines = chunk
    own = engine()
    read = [read_line(text, task) for text in lines]
    found = [shortened(own, one, task) if isinstance(one, Parsed) else one for one in read]
    line_text = partial(json_line, task.rules) if task.as_json else plain_line
    printed = [line_text(*each) for each in zip(count(first + 1), lines, read, found)]
    counts = Counter(refused=sum(isinstance(one, Refusing) for one in found))
    return "".join([line + "\n" for line in printed if line is not None]), counts


def read_line(text: str, task: Task) -> Parsed | Refusing | None:
    """The expression of a line; none where the line is blank or a comment."""
    if is_left_out(text):
        return None
    try:
        parsed = parse(text, task.width)
    except BadText as bad:
        return Refusing(0, task.width, text, bad.at, bad.message, bad.hint)
    return fold(parsed) if task.folds else parsed


def shortened(own: Engine, parsed: Parsed, task: Task) -> tuple[int, Sheet] | Refusing:
    """The par of the normalised sheet, and the shortened one."""
    try:
        return own.shorten(parsed.data, task.passes, task.rules)
    except Refused as bad:
        return refusing(bad.number, parsed, None, task.rules)


def plain_line(number: int, text: str, read: Read, found: Found) -> str | None:
    if isinstance(found, Refusing):
        return refused_line(number, found)
    if found is None or not isinstance(read, Parsed):
        return text
    return sheet_text(found[1], read.names)


def json_line(rules: int, number: int, text: str, read: Read, found: Found) -> str | None:
    if isinstance(found, Refusing):
        return json.dumps({"line": number, **refused(found, rules, number)})
    if found is None or not isinstance(read, Parsed):
        return None
    before, sheet = found
    said = accepted(rules, read, variables_of(read), before, sheet)
    return json.dumps({"line": number, **said})
