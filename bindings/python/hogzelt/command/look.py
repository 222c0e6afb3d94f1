"""hogzelt value, columns, show, write and normalize."""

from __future__ import annotations

import re
import sys

from ..calls import Refused
from ..calls import columns as columns_of
from ..calls import value as value_of
from ..parser import notes
from ..records import Fault, read_answer, read_expression, read_form
from ..render import expression_text, name_of, value_text
from ..show import counted, show_answer, show_columns, show_expression, show_form
from ..tokens import MOST_VARIABLES, BadWord, literal_value, located, variable_number
from .files import write_whole
from .options import Options, Usage
from .report import variables_of
from .source import Given, read_file, read_given, read_parsed, read_sheet, refusing, run

ASSIGNING = re.compile(r"\s*[A-Za-z_][0-9A-Za-z_]*\s*=(?!=)")
ASSIGNMENT = re.compile(r"\s*([A-Za-z_][0-9A-Za-z_]*)\s*=\s*(-?)\s*(\S+)\s*")


def value(options: Options) -> int:
    """The value of a text, a tangle or a sheet under an assignment."""
    assignments = [word for word in options.words if ASSIGNING.match(word)]
    options.words = [word for word in options.words if not ASSIGNING.match(word)]
    given = read_given(options, "value")
    if given.sort == "sheet":
        sheet = read_sheet(given, options)
        data, width, numbers = sheet.data, sheet.form.width, {}
    else:
        parsed = read_parsed(given, options)
        data, width = parsed.data, parsed.width
        numbers = {name_of(i, parsed.names): i for i in variables_of(parsed)}
    assigned = dict(read_assignment(word, numbers) for word in assignments)
    words = [0] * (max(assigned, default=-1) + 1)
    for number, amount in assigned.items():
        words[number] = amount % (1 << width)
    try:
        found = value_of(data, words)
    except Refused as bad:  # a sheet that is read is never refused
        raise refusing(bad.number, parsed, given.name) from None
    if "quiet" in options:
        print(found)
        return 0
    print(value_text(found, width))
    unset = [name for name, number in numbers.items() if number not in assigned]
    if unset:
        print(f"0 where nothing is given: {', '.join(unset)}")
    return 0


def read_assignment(word: str, numbers: dict[str, int]) -> tuple[int, int]:
    """The number of a variable and what it is given; `numbers` has the names of the text."""
    match = ASSIGNMENT.fullmatch(word)
    if not match:
        raise Usage(f"an assignment is NAME=NUMBER, not {word!r}")
    name, sign, amount = match.groups()
    number = numbers.get(name, variable_number(name))
    if number is None:
        known = ", ".join(numbers) or f"a to z, v0 to v{MOST_VARIABLES - 1}"
        raise Usage(f"{word!r}: there is no variable {name} here ({known})")
    try:
        found = literal_value(amount)
    except BadWord as bad:
        raise Usage(f"{word!r}: {bad}") from None
    return number, -found if sign else found


def columns(options: Options) -> int:
    """The classes of places of a sheet, or of the sheet that an expression gives."""
    rules = options.rules()
    given = read_given(options, "columns")
    if given.sort == "sheet":
        sheet, names = read_sheet(given, options), {}
    else:
        parsed = read_parsed(given, options)
        sheet, names = run(given, parsed, rules, options.passes(())), parsed.names
    print("\n".join(show_columns(sheet.form, columns_of(sheet), names)))
    return 0


def show(options: Options) -> int:
    """A tangle, a sheet, a text or what par printed, for people."""
    given = read_file(options, "show")
    try:
        lines = shown(given, options)
    except Fault as bad:
        raise Fault(f"{given.label}{bad}") from None
    print("\n".join(lines))
    return 0


def shown(given: Given, options: Options) -> list[str]:
    data = given.data
    if not data:
        raise Fault("the file is empty; it is to be a tangle, a sheet or what par printed")
    if given.sort == "sheet":
        return show_form(read_form(data))
    if given.sort == "par":
        return show_answer(read_answer(data), options.width())
    if given.sort == "text":
        parsed = read_parsed(given, options)
        return show_expression(parsed.expression, parsed.names)
    expression = read_expression(data)
    if "text" in options:
        return [expression_text(expression.records, expression.width)]
    return show_expression(expression)


def write(options: Options) -> int:
    """The tangle file of a text."""
    given = read_given(options, "write")
    if given.sort != "text":
        raise Usage(f"{given.label}this is no text; hogzelt show shows it")
    parsed = read_parsed(given, options)
    for at, message in notes(parsed):
        sys.stderr.write(f"hogzelt: note: {located(parsed.text, at, message, given.name)}\n")
    data, output = parsed.data, options.get("output") or "-"
    if output == "-":
        if sys.stdout.isatty():
            raise Usage("say where to write: -o FILE")
        sys.stdout.flush()
        sys.stdout.buffer.write(data)
        return 0
    write_whole(output, data, options.get("file"))
    count = counted(len(parsed.records), "record")
    print(f"{output}: width {parsed.width}, {count}, {len(data):,} bytes")
    return 0


def normalize(options: Options) -> int:
    """The tangle of a text and the sheet that normalising makes of it."""
    rules = options.rules()
    given = read_given(options, "normalize")
    parsed = read_parsed(given, options)
    sheet = run(given, parsed, rules)
    print("\n".join(show_expression(parsed.expression, parsed.names)) + "\n")
    print("\n".join(show_form(sheet.form, parsed.names)))
    output = options.get("output")
    if output:
        write_whole(output, sheet.data, options.get("file"))
    return 0
