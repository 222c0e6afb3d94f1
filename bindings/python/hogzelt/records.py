"""The bytes of expressions (document 01: tangles), of semilinear forms (sheets) and of what the
program `par` prints; docs/ARCHITECTURE.md has their layout."""

from __future__ import annotations

import re
import struct
from typing import NamedTuple, NoReturn

CONSTANT, VARIABLE, ADD, MUL, AND, OR, XOR, NOT, NEG, SHR, ZEXT, SEXT, TRUNC, CONCAT = range(14)
KIND_NAMES = "Constant Variable Add Mul And Or Xor Not Neg Shr ZExt SExt Trunc Concat".split()
BINARY = frozenset((ADD, MUL, AND, OR, XOR, CONCAT))
UNARY = frozenset((NOT, NEG, SHR, ZEXT, SEXT, TRUNC))
CASTS = frozenset((ZEXT, SEXT, TRUNC, CONCAT))
ARITHMETIC = frozenset((ADD, MUL, NEG))
# the kinds whose byte 1 says something: low byte of the variable number, shift count or cast width
WITH_ARGUMENT = frozenset((VARIABLE, SHR, ZEXT, SEXT, TRUNC))
# the kinds that the tree of an atom may hold
ATOM_KINDS = frozenset((CONSTANT, VARIABLE, AND, OR, XOR, NOT, SHR))
ARITY = [2 if kind in BINARY else 1 if kind in UNARY else 0 for kind in range(14)]

SUM, HEAD, TERM = 32, 33, 34
MOST_HEAD_BYTE = 4  # byte 1 of a head; new ones have this, and it says nothing

RECORD = 16
RECORD_POWER = 4  # 16 is this power of 2: records are counted without a division
MOST_RECORDS = 1024
MOST_ATOMS = 256
MOST_TREE_RECORDS = 3072
FORM_BYTES = 57360
MOST_SHIFT = 63
MOST_JOINT_VARIABLES = 5  # of two expressions that are judged

# kind, byte 1, size, width, byte 5, literal or word; byte 5 is the high byte of a variable number
LAYOUT = struct.Struct("<BBHBBxxQ")


class Fault(Exception):
    """The bytes are not what they should be; the message names the record and the fault."""


class Record(NamedTuple):
    """A record without its width, which is the same in all records of a file. The argument of a
    Variable is its number, 0 to 65535, of the others 0 to 255."""

    kind: int
    argument: int
    size: int
    literal: int


class Expression(NamedTuple):
    width: int
    records: list[Record]


class Atom(NamedTuple):
    records: list[Record]


class Form(NamedTuple):
    """A semilinear form; terms are pairs of atom number and coefficient, atom numbers rising."""

    width: int
    constant: int
    atoms: list[Atom]
    terms: list[tuple[int, int]]


class Answer(NamedTuple):
    """What `par` prints of a form: no atoms, and no width."""

    constant: int
    terms: list[tuple[int, int]]


class Refusal(NamedTuple):
    """What `par` prints in place of a form."""

    number: int


def article(kind: int) -> str:
    name = KIND_NAMES[kind]
    return ("an " if name[0] in "AO" else "a ") + name


def record_bytes(kind: int, argument: int, size: int, width: int, word: int) -> bytes:
    return LAYOUT.pack(kind, argument & 255, size, width, argument >> 8, word)


def expression_bytes(expression: Expression) -> bytes:
    width, records = expression
    return b"".join([record_bytes(k, a, size, width, word) for k, a, size, word in records])


def tree_records(data: bytes) -> list[Record]:
    """The records of a tree that is known to be good."""
    return [
        Record(kind, low | high << 8, size, word)
        for kind, low, size, _, high, word in LAYOUT.iter_unpack(data)
    ]


def split_form(data: bytes) -> tuple[int, int, list[tuple[int, bytes]]]:
    """Width, constant and terms (coefficient and the tree's bytes) of a form that is known to be
    good."""
    trees, terms, at = [], [], 0
    while data[at] == HEAD:
        end = at + RECORD + RECORD * (data[at + 2] | data[at + 3] << 8)
        trees.append(data[at + RECORD : end])
        at = end
    for kind, _, number, width, _, word in LAYOUT.iter_unpack(data[at:]):
        if kind == SUM:
            break
        terms.append((word, trees[number]))
    return width, word, terms


class Raw:
    """One record of a file, with its number for messages."""

    def __init__(self, data: bytes, number: int) -> None:
        at = number * RECORD
        chunk = data[at : at + RECORD]
        self.number = number
        self.kind, self.argument = chunk[0], chunk[1]
        self.size = int.from_bytes(chunk[2:4], "little")
        self.width = chunk[4]
        self.spare = chunk[5:8]  # in a Variable the first has the high byte of its number
        if self.kind == VARIABLE:
            self.argument |= chunk[5] << 8
        self.word = int.from_bytes(chunk[8:16], "little")

    def fault(self, message: str) -> NoReturn:
        raise Fault(f"record {self.number} (byte {self.number * RECORD}): {message}")

    def check_width(self, width: int) -> None:
        if not 1 <= self.width <= 64:
            self.fault(f"width {self.width}; a width is 1 to 64")
        if self.width != width:
            self.fault(f"width {self.width}; the first record has width {width}")

    def check_spare(self) -> None:
        high, *others = self.spare
        if high and self.kind != VARIABLE:
            where = f" in {article(self.kind)}" if self.kind < len(KIND_NAMES) else ""
            self.fault(f"its byte 5 is {high} and must be 0{where}")
        for i, byte in enumerate(others):
            if byte:
                self.fault(f"its byte {6 + i} is {byte} and must be 0")


def check_length(data: bytes, name: str, most: int) -> None:
    """A length that a run of records can have."""
    if not data:
        raise Fault(f"no bytes; a {name} has at least one record of {RECORD} bytes")
    if len(data) > most:
        raise Fault(f"{len(data):,} bytes; a {name} has at most {most:,}")
    if len(data) & (RECORD - 1):
        raise Fault(f"{len(data):,} bytes, not a multiple of {RECORD}: a record is cut short")


def read_expression(data: bytes) -> Expression:
    """The expression that the bytes hold; every well-formed file is read, casts and shift counts
    that the engine refuses included."""
    check_length(data, "tangle", MOST_RECORDS * RECORD)
    width = data[4]
    return Expression(width, read_tree(data, 0, len(data) >> RECORD_POWER, width))


def read_tree(data: bytes, first: int, count: int, width: int) -> list[Record]:
    """The tree in `count` records from number `first` on: children first, the root last."""
    records: list[Record] = []
    roots: list[int] = []  # the record numbers of trees that have no parent yet
    for number in range(first, first + count):
        raw = Raw(data, number)
        check_node(raw, width)
        wanted = ARITY[raw.kind]
        if len(roots) < wanted:
            before = "1 tree stands" if roots else "none stands"
            children = "two children" if wanted == 2 else "a child"
            raw.fault(f"{article(raw.kind)} has {children} before it, but {before} there")
        size = 1
        for _ in range(wanted):
            size += records[roots.pop() - first].size
        if raw.size != size:
            raw.fault(f"size {raw.size}; {article(raw.kind)} here has size {size}")
        roots.append(number)
        records.append(Record(raw.kind, raw.argument, raw.size, raw.word))
    if len(roots) > 1:
        Raw(data, roots[0]).fault(
            f"no parent; {len(roots)} trees stand side by side, and the last record is to hold all"
        )
    return records


def check_node(raw: Raw, width: int) -> None:
    if raw.kind > CONCAT:
        raw.fault(f"kind {raw.kind}; the kinds of an expression are 0 to {CONCAT}")
    raw.check_width(width)
    raw.check_spare()
    if raw.argument and raw.kind not in WITH_ARGUMENT:
        raw.fault(f"its byte 1 is {raw.argument} and must be 0 in {article(raw.kind)}")
    if raw.word and raw.kind != CONSTANT:
        raw.fault(f"its bytes 8 to 15 hold {raw.word} and must be 0 in {article(raw.kind)}")


def read_form(data: bytes) -> Form:
    """The semilinear form that the bytes hold, checked as the engine checks it (refusal 10)."""
    check_length(data, "sheet", FORM_BYTES)
    count = len(data) >> RECORD_POWER
    width = data[4]
    atoms, number = read_atoms(data, count, width)
    terms: list[tuple[int, int]] = []
    while number < count and Raw(data, number).kind == TERM:
        terms.append(read_term(Raw(data, number), width, terms, len(atoms)))
        number += 1
    if number == count:
        raise Fault(f"no sum record (kind {SUM}) after record {count - 1}: the sheet is cut short")
    constant = read_sum(Raw(data, number), width)
    used = (number + 1) * RECORD
    if not any(data[used:]) and len(data) > used:
        raise Fault(f"the sheet ends at byte {used}, and {len(data) - used:,} zero bytes follow;"
                    " only the used length is the sheet")
    if len(data) > used:
        Raw(data, number + 1).fault("stands behind the sum record, which is the last")
    return Form(width, constant, atoms, terms)


def read_atoms(data: bytes, count: int, width: int) -> tuple[list[Atom], int]:
    """The atoms at the front, and the number of the record behind them."""
    atoms: list[Atom] = []
    number = total = 0
    while number < count and Raw(data, number).kind == HEAD:
        head = Raw(data, number)
        check_head(head, len(atoms), count, width)
        records = read_tree(data, number + 1, head.size, width)
        check_atom(head, records)
        atoms.append(Atom(records))
        total += head.size
        number += 1 + head.size
    if len(atoms) > MOST_ATOMS:
        raise Fault(f"{len(atoms)} atoms; a sheet has at most {MOST_ATOMS}")
    if total > MOST_TREE_RECORDS:
        raise Fault(f"{total:,} tree records; a sheet has at most {MOST_TREE_RECORDS:,}")
    return atoms, number


def check_head(head: Raw, index: int, count: int, width: int) -> None:
    head.check_width(width)
    head.check_spare()
    if head.argument > MOST_HEAD_BYTE:
        head.fault(f"byte 1 of the head of atom {index} is {head.argument};"
                   f" a head has 0 to {MOST_HEAD_BYTE} there")
    if head.size == 0:
        head.fault(f"atom {index} has no tree")
    if head.number + head.size >= count:
        head.fault(f"the tree of atom {index} has {head.size} records, past the end of the file")


def check_atom(head: Raw, records: list[Record]) -> None:
    for i, record in enumerate(records):
        where = f"record {head.number + 1 + i} (byte {(head.number + 1 + i) * RECORD})"
        if record.kind not in ATOM_KINDS:
            raise Fault(f"{where}: an atom holds no {KIND_NAMES[record.kind]}")
        if record.kind == SHR and record.argument > MOST_SHIFT:
            raise Fault(f"{where}: shift count {record.argument}; in an atom it is 63 at most")
    if all(record.kind != VARIABLE for record in records):
        head.fault("the atom holds no variable")
    wanted = structural_hash(records)
    if head.word != wanted:
        head.fault(f"hash {head.word:016x}; the tree has {wanted:016x}")


def read_term(raw: Raw, width: int, terms: list[tuple[int, int]], atoms: int) -> tuple[int, int]:
    raw.check_width(width)
    raw.check_spare()
    if raw.argument:
        raw.fault(f"its byte 1 is {raw.argument} and must be 0 in a term")
    if raw.size >= atoms:
        raw.fault(f"a term of atom {raw.size}; the sheet has {atoms} atoms, numbered from 0")
    if terms and raw.size <= terms[-1][0]:
        raw.fault(f"a term of atom {raw.size} behind one of atom {terms[-1][0]}; they must rise")
    if not 1 <= raw.word < 1 << width:
        raw.fault(f"coefficient {raw.word}; at width {width} it is 1 to {(1 << width) - 1}")
    return raw.size, raw.word


def read_sum(raw: Raw, width: int) -> int:
    if raw.kind != SUM:
        raw.fault(f"kind {raw.kind}; expected an atom's head ({HEAD}), a term ({TERM})"
                  f" or the sum record ({SUM}), in this order")
    raw.check_width(width)
    raw.check_spare()
    if raw.argument or raw.size:
        raw.fault("its bytes 1 to 3 must be 0 in the sum record")
    if raw.word >= 1 << width:
        raw.fault(f"constant {raw.word}; at width {width} it is below {1 << width}")
    return raw.word


def structural_hash(records: list[Record]) -> int:
    """The hash of a tree, over uncut literals; sums and products wrap at 64 bits."""
    stack: list[int] = []
    for record in records:
        if record.kind == VARIABLE:
            value = 1 ^ (record.argument + 1) * 0x517CC1B727220A95 % 2**64
        else:
            own = record.literal if record.kind == CONSTANT else record.argument
            value = record.kind ^ own * 0x9E3779B97F4A7C15 % 2**64
        wanted = ARITY[record.kind]
        for child in stack[len(stack) - wanted :]:
            value = mix_hash(value, child)
        del stack[len(stack) - wanted :]
        stack.append(value)
    return stack[-1]


def mix_hash(value: int, child: int) -> int:
    return value ^ (child + 0x9E3779B97F4A7C15 + (value << 6) % 2**64 + (value >> 2)) % 2**64


def read_answer(data: bytes) -> Answer | Refusal:
    """What `par` printed: lines C, T and T .., or one line R."""
    try:
        lines = data.decode("ascii").split("\n")
    except UnicodeDecodeError as bad:
        raise Fault(f"byte {bad.start} is no ASCII character; par prints none other") from None
    if lines[-1] == "":
        lines.pop()
    refusal = re.fullmatch(r"R ([1-9]|10)", lines[0])
    if refusal:
        if len(lines) > 1:
            raise Fault("line 2: nothing follows a refusal")
        return Refusal(int(refusal.group(1)))
    constant = re.fullmatch(r"C ([0-9a-f]{16})", lines[0])
    if not constant:
        raise Fault("line 1: expected C and 16 lower-case hex digits, or R and a number 1 to 10")
    terms: list[tuple[int, int]] = []
    for at, line in enumerate(lines[1:], 2):
        term = re.fullmatch(r"T (0|[1-9][0-9]{0,2}) ([0-9a-f]{16})", line)
        if not term:
            raise Fault(f"line {at}: expected T, an atom number and 16 lower-case hex digits")
        number = int(term.group(1))
        if terms and number <= terms[-1][0]:
            raise Fault(f"line {at}: atom {number} behind atom {terms[-1][0]}; they must rise")
        terms.append((number, int(term.group(2), 16)))
    return Answer(int(constant.group(1), 16), terms)
