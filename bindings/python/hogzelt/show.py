"""Tangles, sheets, columns and what `par` printed, in several lines for people."""

from __future__ import annotations

from typing import Mapping, Sequence

from .calls import OPAQUE, Column
from .records import (
    AND, ARITY, CASTS, CONSTANT, MOST_SHIFT, OR, SHR, VARIABLE, XOR, Answer, Atom, Expression, Form,
    Record, Refusal, expression_bytes,
)
from .refusals import meaning
from .render import (
    NO_NAMES, bits_text, expression_text, factor_text, mask_text, name_of, signed, sum_text,
)


def counted(count: int, noun: str) -> str:
    return f"{count:,} {noun}" + ("" if count == 1 else "s")


def number_line(value: int, width: int) -> str:
    """A number as masks are shown, and its signed reading."""
    return f"{mask_text(value, width)} ({signed(value, width)})"


def masks(records: list[Record]) -> list[int]:
    """The literals that stand beside And, Or or Xor, each once, in order."""
    found: dict[int, None] = {}
    stack: list[Record] = []
    for record in records:
        below = [stack.pop() for _ in range(ARITY[record.kind])][::-1]
        if record.kind in (AND, OR, XOR):
            found.update((child.literal, None) for child in below if child.kind == CONSTANT)
        stack.append(record)
    return list(found)


def mask_lines(records: list[Record], width: int, indent: str) -> list[str]:
    places = f"places {width - 1} to 0" if width > 1 else "place 0"
    listed = masks(records)
    room = max((len(mask_text(m, width)) for m in listed), default=0)
    return [
        f"{indent}mask {mask_text(m, width):>{room}}, {places}: {bits_text(m, width)}"
        for m in listed
    ]


def show_expression(expression: Expression, names: Mapping[int, str] = NO_NAMES) -> list[str]:
    width, records = expression
    lines = [f"tangle: width {width}, {counted(len(records), 'record')}"]
    lines.append(expression_text(records, width, names))
    lines += mask_lines(records, width, "  ")
    if any(record.kind in CASTS for record in records):
        lines.append("note: casts and Concat are refused (5)")
    if any(record.kind == SHR and record.argument > MOST_SHIFT for record in records):
        lines.append(f"note: shift counts above {MOST_SHIFT} are refused (6)")
    return lines


def show_form(form: Form, names: Mapping[int, str] = NO_NAMES) -> list[str]:
    width = form.width
    lines = [f"sheet: width {width}, {counted(len(form.atoms), 'atom')}, par {len(form.terms)}"]
    trees = [(c, expression_bytes(Expression(width, form.atoms[n].records))) for n, c in form.terms]
    lines.append(f"sum       {sum_text(width, form.constant, trees, names)}")
    lines.append(f"constant  {number_line(form.constant, width)}")
    for (number, coefficient), (_, tree) in zip(form.terms, trees):
        product = f"{number_line(coefficient, width)} * {factor_text(tree, width, names)}"
        lines.append(f"{f'term {number}':<8}  {product}")
        lines += mask_lines(form.atoms[number].records, width, " " * 12)
    used = {number for number, _ in form.terms}
    for number, atom in enumerate(form.atoms):
        if number not in used:
            text = expression_text(atom.records, width, names)
            lines.append(f"{f'atom {number}':<8}  not used: {text}")
            lines += mask_lines(atom.records, width, " " * 12)
    return lines


def show_answer(answer: Answer | Refusal, width: int | None = None) -> list[str]:
    """What `par` printed; it says nothing of the width, so that one must be given for signs."""
    if isinstance(answer, Refusal):
        return [f"refusal {answer.number}: {meaning(answer.number)}"]

    def number(value: int) -> str:
        return number_line(value, width) if width else mask_text(value, 64)

    lines = [f"par {len(answer.terms)}", f"constant  {number(answer.constant)}"]
    lines += [f"{f'term {atom}':<8}  {number(c)} * (atom {atom})" for atom, c in answer.terms]
    return lines


def show_columns(
    form: Form, classes: Sequence[Column], names: Mapping[int, str] = NO_NAMES
) -> list[str]:
    """Each class with its places, and for each atom its table under the bits of its variables."""
    width = form.width
    lines = [f"columns: width {width}, {counted(len(form.atoms), 'atom')},"
             f" {len(classes)} {'class' if len(classes) == 1 else 'classes'}"]
    for number, column in enumerate(classes):
        lines.append("")
        places = bits_text(column.mask, width).replace("0", ".")
        lines.append(f"class {number}  mask {mask_text(column.mask, width)},"
                     f" places {width - 1} to 0: {places}")
        for atom, table in zip(form.atoms, column.tables):
            lines += ["  " + line for line in table_lines(atom, table, width, names)]
    return lines


def table_lines(atom: Atom, table: int, width: int, names: Mapping[int, str]) -> list[str]:
    """A row of bits for each variable, and below them the atom's."""
    text = expression_text(atom.records, width, names)
    if table >= OPAQUE:
        return [f"{text}: a shift, or more than five variables; no table"]
    variables = sorted({r.argument for r in atom.records if r.kind == VARIABLE})
    labels = [name_of(i, names) for i in variables]
    room = max(len(label) for label in (*labels, text))
    rows = range(1 << len(variables))
    lines = [
        f"{label:>{room}}  {' '.join(str(row >> place & 1) for row in rows)}"
        for place, label in enumerate(labels)
    ]
    lines.append(f"{text:>{room}}  {' '.join(str(table >> row & 1) for row in rows)}")
    return lines
