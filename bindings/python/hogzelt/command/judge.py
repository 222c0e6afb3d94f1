"""hogzelt judge: whether two expressions have the same value under every assignment."""

from __future__ import annotations

import json
import sys
from collections import Counter
from functools import partial
from itertools import count
from typing import NamedTuple, Union

from ..render import literal_text, value_text
from ..verdict import SIDES, Verdict
from .lines import Chunk, is_left_out, jobs_of, lines_of, print_lines
from .options import Options, Usage
from .pair import Pair, WidthsDiffer, given_sides, read_pair, sides_of_line
from .report import refused_line
from .source import Given, Refusing, given_file, width_of

EQUAL, DIFFER, REFUSED = 0, 1, 2  # the statuses, as those of cmp
# what a line is read as, and what is found for it
Read = Union[Pair, Refusing, None]
Found = Union[Verdict, Refusing, None]


def judge(options: Options) -> int:
    has_files = any(side in options for side in SIDES)
    named = options.get("file")
    if named is None and options.words == ["-"] and not has_files:
        named, options.words = "-", []
    if named is not None:
        if options.words or has_files:
            raise Usage("two texts or -f FILE, not both")
        return judge_lines(given_file(named), options)
    try:
        pair = read_pair(given_sides(options), "fold" in options)
        found = pair.verdict()
    except Refusing as bad:
        if "json" in options and "quiet" not in options:
            print(json.dumps(refused(bad, bad.place[0])))
            return REFUSED
        raise
    if "quiet" not in options:
        print(json.dumps(judged(pair, found)) if "json" in options else shown(pair, found))
    return EQUAL if found.equal else DIFFER


def shown(pair: Pair, found: Verdict) -> str:
    """The verdict, and below it the two values where they differ."""
    width = pair.left.width
    lines = [verdict_line(found, width)]
    if not found.equal:
        values = [number for number in (found.left, found.right) if number is not None]
        room = max(len(str(number)) for number in values)
        lines += [f"{side:<5}  {' ' * (room - len(str(number)))}{value_text(number, width)}"
                  for side, number in zip(SIDES, values)]
    return "\n".join(lines)


def verdict_line(found: Verdict, width: int) -> str:
    if found.left is None or found.right is None:
        return "equal for every assignment, proved"
    where = ", ".join(f"{name} = {literal_text(number, width)}"
                      for name, number in found.variables.items())
    values = f"left {literal_text(found.left, width)}, right {literal_text(found.right, width)}"
    return f"differ at {where}: {values}" if where else f"differ: {values}"


def judged(pair: Pair, found: Verdict) -> dict[str, object]:
    """The object of two that are judged; what tells them apart is null where nothing does."""
    left, right = (side.text.strip() for side in pair.sides)
    return {
        "width": pair.left.width,
        "text": f"{left} == {right}",
        "refusal": None,
        "equal": found.equal,
        "proved": True,
        "place": found.place,
        "index": found.index,
        "variables": None if found.equal else found.variables,
        "left": found.left,
        "right": found.right,
    }


def refused(bad: Refusing, line: int) -> dict[str, object]:
    """The object of two that are refused. The text is the one that line and column are in, that of
    both or of one side; refusal 11 has no place."""
    has_place = not isinstance(bad, WidthsDiffer)
    refusal = {"number": bad.number, "side": bad.side, "line": line if has_place else None,
               "column": bad.place[1] if has_place else None, "message": bad.message,
               "hint": bad.hint}
    return {"width": bad.width, "text": bad.text, "refusal": refusal, "equal": None,
            "proved": False, "place": None, "index": None, "variables": None, "left": None,
            "right": None}


class Task(NamedTuple):
    """What is done with each line."""

    width: int
    folds: bool
    as_json: bool
    quiet: bool


def judge_lines(given: Given, options: Options) -> int:
    """A line for each line of the file; blank lines and comments stay as they are."""
    if given.sort != "text":
        raise Usage(f"{given.label}a text with a pair a line is needed here; --left and --right"
                    " take a tangle")
    task = Task(width_of(given, options), "fold" in options, "json" in options, "quiet" in options)
    counts = print_lines(lines_of(given), partial(judge_chunk, task), jobs_of(options))
    if counts["refused"] or (counts["differ"] and not task.quiet):
        said = ", ".join(f"{name} {counts[name]:,}" for name in ("equal", "differ", "refused"))
        sys.stderr.write(f"hogzelt: {given.name}: {said}\n")
    return REFUSED if counts["refused"] else DIFFER if counts["differ"] else EQUAL


def judge_chunk(task: Task, chunk: Chunk) -> tuple[str, Counter[str]]:
    """In rounds over all lines, as those that are shortened."""
    first, lines = chunk
    read = [read_line(text, task) for text in lines]
    found = [verdict_of(one) if isinstance(one, Pair) else one for one in read]
    counts = Counter(sort_of(one) for one in found)
    if task.quiet:
        return "", counts
    line_text = json_line if task.as_json else plain_line
    printed = [line_text(*each) for each in zip(count(first + 1), lines, read, found)]
    return "".join([line + "\n" for line in printed if line is not None]), counts


def read_line(text: str, task: Task) -> Read:
    """The pair of a line; none where the line is blank or a comment."""
    if is_left_out(text):
        return None
    try:
        return read_pair(sides_of_line(text, task.width), task.folds)
    except Refusing as bad:
        return bad


def verdict_of(pair: Pair) -> Verdict | Refusing:
    try:
        return pair.verdict()
    except Refusing as bad:
        return bad


def sort_of(found: Found) -> str:
    """What a line is counted as."""
    if isinstance(found, Refusing):
        return "refused"
    if found is None:
        return "left out"
    return "equal" if found.equal else "differ"


def plain_line(number: int, text: str, read: Read, found: Found) -> str:
    if isinstance(found, Refusing):
        return refused_line(number, found)
    if found is None or not isinstance(read, Pair):
        return text
    return verdict_line(found, read.left.width)


def json_line(number: int, text: str, read: Read, found: Found) -> str | None:
    if isinstance(found, Refusing):
        return json.dumps({"line": number, **refused(found, number)})
    if found is None or not isinstance(read, Pair):
        return None
    return json.dumps({"line": number, **judged(read, found)})
