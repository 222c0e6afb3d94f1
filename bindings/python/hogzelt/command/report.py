"""What is said of one expression: its sum, the table of names, the object that --json prints."""

from __future__ import annotations

from typing import Mapping, Sequence

from ..calls import Sheet
from ..parser import Parsed
from ..records import VARIABLE, split_form
from ..render import NO_NAMES, factor_text, name_of, sum_text
from ..tables import judged_plainer
from .source import Refusing


def sheet_text(sheet: Sheet, names: Mapping[int, str] = NO_NAMES) -> str:
    return sum_text(*split_form(sheet.data), names)


def variables_of(parsed: Parsed) -> list[int]:
    return sorted({r[1] | r[5] << 8 for r in parsed.records if r[0] == VARIABLE})


def names_text(variables: Sequence[int], names: Mapping[int, str]) -> str:
    """The table of names: x is v23."""
    return ", ".join(f"{name_of(i, names)} is v{i}" for i in variables)


def accepted(
    rules: int | None, parsed: Parsed | None, variables: Sequence[int], before: int, sheet: Sheet
) -> dict[str, object]:
    """The object of an expression that is accepted; rules and text of a sheet are null."""
    width, constant, terms = split_form(sheet.data)
    names = parsed.names if parsed else NO_NAMES
    other = judged_plainer(sheet, parsed)
    return {
        "width": width,
        "rules": rules,
        "text": parsed.text if parsed else None,
        "refusal": None,
        "sum": sum_text(width, constant, terms, names),
        "constant": constant,
        "terms": [{"coefficient": c, "atom": factor_text(t, width, names)} for c, t in terms],
        "par": {"before": before, "after": sheet.par},
        "plainer": other and {"sum": other.text, "proved": other.proved},
        "variables": {name_of(i, names): i for i in variables},
    }


def refused_line(number: int, bad: Refusing) -> str:
    """What stands for a line that is refused: a comment, so that the output can be read again."""
    hint = f"; {bad.hint}" if bad.hint else ""
    return f"# line {number}, column {bad.place[1]}: {bad.sentence}{hint}"


def refused(bad: Refusing, rules: int, line: int) -> dict[str, object]:
    """The object of an expression that is refused, on this line of its source; the number is 0
    where a text is none."""
    refusal = {"number": bad.number, "line": line, "column": bad.place[1], "message": bad.message,
               "hint": bad.hint}
    return {"width": bad.width, "rules": rules, "text": bad.text, "refusal": refusal, "sum": None,
            "constant": None, "terms": None, "par": None, "plainer": None, "variables": None}
