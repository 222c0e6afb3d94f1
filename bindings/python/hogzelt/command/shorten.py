"""hogzelt shorten: an expression as a sum of few weighted atoms."""

from __future__ import annotations

import json
from typing import Mapping, NamedTuple

from ..calls import SHORTENING, Pass, Refused, Sheet, run_pass
from ..parser import Parsed
from ..records import VARIABLE
from ..render import NO_NAMES
from ..tables import judged_plainer
from .batch import run_batch
from .options import PASSES, Options, Usage
from .report import accepted, names_text, refused, sheet_text, variables_of
from .source import Given, Refusing, read_given, read_parsed, read_sheet, run

NAMES = {number: name for name, number in PASSES.items()}


class Step(NamedTuple):
    """A sheet on the way; `refusal` is that of the call, which then left the sheet as it was."""

    name: str
    sheet: Sheet
    refusal: int


class Shortened(NamedTuple):
    """What is printed: the last sheet, or the first one where that has fewer terms. A sheet that is
    given has no text and no rules."""

    width: int
    rules: int | None
    parsed: Parsed | None
    variables: list[int]
    steps: list[Step]

    @property
    def names(self) -> Mapping[int, str]:
        return self.parsed.names if self.parsed else NO_NAMES

    @property
    def first(self) -> Sheet:
        return self.steps[0].sheet

    @property
    def last(self) -> Sheet:
        last = self.steps[-1].sheet
        return last if last.par <= self.first.par else self.first


def shorten(options: Options) -> int:
    rules = options.rules()
    given = read_given(options, "shorten")
    passes = options.passes(SHORTENING)
    if given.sort == "par":
        raise Usage(f"{given.label}what par printed has no atoms; give the tangle or a text")
    if given.sort == "text" and given.name is not None:
        if "steps" in options:
            raise Usage("--steps is for one expression; a file has one on each line")
        return run_batch(given, options, rules, passes)
    try:
        if given.sort == "sheet":
            result = of_sheet(given, options, passes)
        else:
            result = of_text(given, options, rules, passes)
    except Refusing as bad:
        if "json" not in options:
            raise
        print(json.dumps(refused(bad, rules, bad.place[0])))
        return 1
    if "json" in options:
        said = accepted(result.rules, result.parsed, result.variables, result.first.par,
                        result.last)
        print(json.dumps(said))
    else:
        print("\n".join(shown(result, "steps" in options, "quiet" in options)))
    return 0


def of_text(given: Given, options: Options, rules: int, passes: tuple[int, ...]) -> Shortened:
    parsed = read_parsed(given, options)
    steps = steps_from(Step("normalise", run(given, parsed, rules), 0), passes)
    return Shortened(parsed.width, rules, parsed, variables_of(parsed), steps)


def of_sheet(given: Given, options: Options, passes: tuple[int, ...]) -> Shortened:
    sheet = read_sheet(given, options)
    form = sheet.form
    variables = {r.argument for atom in form.atoms for r in atom.records if r.kind == VARIABLE}
    steps = steps_from(Step("as given", sheet, 0), passes)
    return Shortened(form.width, None, None, sorted(variables), steps)


def steps_from(first: Step, passes: tuple[int, ...]) -> list[Step]:
    """The sheets after each call; one that is refused leaves the sheet as it was."""
    steps = [first]
    for number in passes:
        sheet = steps[-1].sheet
        try:
            steps.append(Step(NAMES[number], run_pass(Pass(number), sheet), 0))
        except Refused as bad:
            steps.append(Step(NAMES[number], sheet, bad.number))
    return steps


def shown(result: Shortened, with_steps: bool, quiet: bool) -> list[str]:
    answer = sheet_text(result.last, result.names)
    if quiet:
        return [answer]
    lines = [step_line(step, result.names) for step in result.steps] if with_steps else []
    lines.append(answer)
    start = result.steps[0].name.replace("normalise", "normalised")
    rules = ", rules 2" if result.rules == 2 else ""
    lines.append(f"par {result.last.par}, {start} {result.first.par}; width {result.width}{rules}")
    if result.variables:
        lines.append("variables: " + names_text(result.variables, result.names))
    other = judged_plainer(result.last, result.parsed)
    if other is not None:
        proved = "proved equal" if other.proved else "not proved"
        lines.append(f"by truth tables, {proved}: {other.text}")
    return lines


def step_line(step: Step, names: Mapping[int, str]) -> str:
    if step.refusal:
        return f"{step.name:<10} refused by {step.refusal}; the sheet stays"
    atoms = len(step.sheet.form.atoms)
    counts = f"par {step.sheet.par}, atoms {atoms}"
    return f"{step.name:<10} {counts:<18} {sheet_text(step.sheet, names)}"
