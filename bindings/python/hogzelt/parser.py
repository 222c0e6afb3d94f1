"""Text to the records of an expression.

C's precedence, tightest first: ~ and - before an operand, *, + and -, << and >>, &, ^, |. Operators
of one row associate to the left. Operators wait on a stack and the records come out in the order of
the file, so nesting has no limit but the count of records. Places are numbers of tokens; where in
the text a token stands is looked up only for a message."""

from __future__ import annotations

from typing import Any, Iterable, Iterator, Mapping, NamedTuple, NoReturn, Tuple

from .records import (
    ADD, AND, CASTS, CONCAT, CONSTANT, KIND_NAMES, LAYOUT, MOST_RECORDS, MOST_SHIFT, MUL, NEG, NOT,
    OR, SEXT, SHR, TRUNC, VARIABLE, XOR, ZEXT, Expression, record_bytes, tree_records,
)
from .render import NO_NAMES
from .tokens import (
    MOST_VARIABLES, NAME, TOKEN, BadText, BadWord, clip, line_and_column, literal_value,
    token_place, variable_number, variable_text,
)

# two more that wait for a right operand: x - y is Add of x and Neg of y, x << n is x * 2^n
SUBTRACT, SHL = 100, 101
# symbol: precedence and what waits
INFIX = {
    "*": (6, MUL), "+": (5, ADD), "-": (5, SUBTRACT), "<<": (4, SHL), ">>": (4, SHR),
    "&": (3, AND), "^": (2, XOR), "|": (1, OR),
}
ENDS = (1, None)  # any other token behind an operand
PREFIX = {"~": (7, NOT), "-": (7, NEG)}
PLAIN = frozenset((ADD, MUL, AND, OR, XOR))
CASTS_BY_NAME = {"zext": ZEXT, "sext": SEXT, "trunc": TRUNC, "concat": CONCAT}

OPERAND = 'a literal, a variable, "~", "-" or "("'
OPERATOR = "an operator (* + - << >> & ^ |)"
# words that are no names of variables
RESERVED = {"and": "&", "or": "|", "xor": "^", "not": "~"}
# by token, in small letters
HINTS = {
    **{word: f"{word} is written {symbol}" for word, symbol in RESERVED.items()},
    **dict.fromkeys(("<", ">", "<=", ">=", "==", "!="), "there are no comparisons"),
    "&&": "there is no logical and; bit by bit it is &",
    "||": "there is no logical or; bit by bit it is |",
    "!": "there is no logical not; bit by bit it is ~",
    "**": "there are no powers; a product is written *",
    "%": "there is no remainder; of a power of two it is a mask: x % 8 is x & 7",
    "mod": "there is no remainder; of a power of two it is a mask: x mod 8 is x & 7",
    "/": "there is no division; by a power of two it is a shift: x / 8 is x >> 3",
    "//": "neither a division nor a comment is read here",
    "div": "there is no division; by a power of two it is a shift: x div 8 is x >> 3",
    ">>>": "the shift that brings in zeros is written >>",
    "shl": "the shift is written <<",
    "shr": "the shift is written >>",
    "+": "a sign + is left out",
    "=": "an expression has no equals sign",
    ";": "an expression has no ; at its end",
    "#": "a comment has a line of its own, in a file with one expression a line",
    "\u00d7": "a product is written *",
    "\u00b7": "a product is written *",
    "\u2212": "minus is written -",
    "\u00ac": "not is written ~",
    "\u2227": "and is written &",
    "\u2228": "or is written |",
    "\u2295": "xor is written ^",
}

MOST_KEPT = 1 << 16

# What waits for its right operand: precedence, kind and place. An open parenthesis or call has the
# precedence 0, which keeps operators inside, the kind None or that of the cast, and two more: the
# cast's width, and whether a comma has to come.
Waiting = Tuple[Any, ...]
BOTTOM: Waiting = (-1, None, 0, 0, False)


class Parsed(NamedTuple):
    """The records of a text, for each the number of the token that it comes from, and the names of
    variables that are not called a to z or v26 to v65535."""

    text: str
    width: int
    records: list[bytes]
    places: list[int]
    names: dict[int, str]

    @property
    def data(self) -> bytes:
        return b"".join(self.records)

    @property
    def expression(self) -> Expression:
        return Expression(self.width, tree_records(self.data))

    def place(self, record: int) -> int:
        """Where in the text a record comes from."""
        return token_place(self.text, self.places[record])


class Nodes(dict[int, bytes]):
    """The records of operators at a width, by size and kind."""

    def __init__(self, width: int) -> None:
        super().__init__()
        self.width = width

    def __missing__(self, key: int) -> bytes:
        self[key] = record = record_bytes(key & 15, 0, key >> 4 & 0xFFFF, self.width, 0)
        return record


# by width: the records of operators, and those of literals and variables by their token
NODES = [Nodes(width) for width in range(65)]
LEAVES: list[dict[str, bytes]] = [{} for _ in range(65)]


class Numbering:
    """The numbers of names that have none of their own, for all texts that are read with it: those
    that some have already, and for each other one the lowest that no token and no name has."""

    def __init__(self, tokens: Iterable[str], names: Mapping[int, str] = NO_NAMES) -> None:
        self.free = free_numbers(tokens, names)
        self.numbers = {name: number for number, name in names.items()}

    def number(self, name: str) -> int | None:
        """None where no number is left."""
        if name not in self.numbers:
            free = next(self.free, None)
            if free is None:
                return None
            self.numbers[name] = free
        return self.numbers[name]


def free_numbers(tokens: Iterable[str], names: Mapping[int, str]) -> Iterator[int]:
    """The numbers that neither a token nor a name has, rising. Tokens are looked at once a number
    is asked for: most texts have no name that needs one."""
    taken = {*map(variable_number, tokens), *names}
    yield from (number for number in range(MOST_VARIABLES) if number not in taken)


def numbering_of(texts: Iterable[str]) -> Numbering:
    """One numbering for several texts: a name is the same variable in all of them."""
    return Numbering(token for text in texts for token in TOKEN.findall(text))


def parse(text: str, width: int, numbering: Numbering | None = None) -> Parsed:
    """The records of the text at this width; BadText where it is no expression. Where no
    numbering is given, names get numbers by this text alone."""
    parser = Parser(text, width, numbering)
    parser.run()
    count = len(parser.records)
    if count > MOST_RECORDS:
        at = token_place(text, parser.places[MOST_RECORDS])
        message = f"the text makes {count:,} records; a tangle has {MOST_RECORDS:,} at most"
        raise BadText(at, message)
    return Parsed(text, width, parser.records, parser.places, parser.names)


def notes(parsed: Parsed) -> list[tuple[int, str]]:
    """For each sort of thing that is cut or refused its first place and how often it is met."""
    found: dict[int, list[Any]] = {}
    width = parsed.width
    for i, record in enumerate(parsed.expression.records):
        if record.kind == CONSTANT and record.literal >= 1 << width:
            message = f"{record.literal} is cut to {record.literal % (1 << width)} at width {width}"
        elif record.kind == SHR and record.argument > MOST_SHIFT:
            message = f"shift count {record.argument}: counts above {MOST_SHIFT} are refused (6)"
        elif record.kind in CASTS:
            message = f"{KIND_NAMES[record.kind]}: casts and Concat are refused (5)"
        else:
            continue
        sort = CONCAT if record.kind in CASTS else record.kind
        found.setdefault(sort, [parsed.place(i), message, 0])[2] += 1
    return [
        (at, message if times == 1 else f"{message}; {times - 1} more like this")
        for at, message, times in found.values()
    ]


class Parser:
    """A text on its way to records. Operators wait until what binds tighter has its operands."""

    def __init__(self, text: str, width: int, numbering: Numbering | None) -> None:
        self.text = text
        self.tokens = TOKEN.findall(text)
        self.tokens.append("")
        self.width = width
        self.records: list[bytes] = []
        self.places: list[int] = []
        self.sizes: list[int] = []  # those of the operands that have no parent yet
        self.waiting: list[Waiting] = [BOTTOM]
        self.names: dict[int, str] = {}
        self.numbering = numbering

    def run(self) -> None:
        """An operand, with what opens before it, and then what comes behind it, by turns. In this
        loop reading a batch spends its time: what is frequent stands in it, the rest is called."""
        tokens, waiting, leaves = self.tokens, self.waiting, LEAVES[self.width]
        records, places, sizes = self.records, self.places, self.sizes
        nodes = NODES[self.width]
        at = 0
        while True:
            token = tokens[at]
            leaf = leaves.get(token)
            if leaf is None:
                if token == "(":
                    waiting.append((0, None, at, 0, False))
                    at += 1
                    continue
                if token in PREFIX:
                    waiting.append((*PREFIX[token], at))
                    at += 1
                    continue
                if token in CASTS_BY_NAME:
                    at = self.open_call(at)
                    continue
                leaf = self.leaf(token, at)
            records.append(leaf)
            places.append(at)
            sizes.append(1)
            while True:
                at += 1
                token = tokens[at]
                precedence, kind = INFIX.get(token, ENDS)
                top = waiting[-1]
                while top[0] >= precedence:  # these bind at least so tight, and have their operands
                    del waiting[-1]
                    _, operator, place = top
                    if operator in PLAIN:
                        size = sizes.pop() + sizes[-1] + 1
                        sizes[-1] = size
                        records.append(nodes[size << 4 | operator])
                        places.append(place)
                    else:
                        self.take_operands(operator, place)
                    top = waiting[-1]
                if kind is not None:
                    waiting.append((precedence, kind, at))
                    break
                if token == "" and top is BOTTOM:
                    return
                if not self.ends(token, top):
                    self.wrong_operator(at)
                if token == ",":
                    break
            at += 1

    def take_operands(self, kind: int, at: int) -> None:
        """Gives a prefix operator, a minus sign or a shift its operands, which stand last."""
        sizes, nodes = self.sizes, NODES[self.width]
        if kind == SHR:
            self.shift_right(at)
            return
        if kind == SUBTRACT:
            self.records.append(nodes[sizes[-1] + 1 << 4 | NEG])
            self.places.append(at)
            size = 2 + sizes.pop() + sizes[-1]
            kind = ADD
        elif kind == SHL:
            self.shift_left(at)
            size = 2 + sizes[-1]
            kind = MUL
        else:
            size = 1 + sizes[-1]
        sizes[-1] = size
        self.records.append(nodes[size << 4 | kind])
        self.places.append(at)

    def ends(self, token: str, opening: Waiting) -> bool:
        """Takes the end of an operand in an opening: its parenthesis, or the comma that it waits
        for. False where something else comes."""
        if opening is BOTTOM or token != ("," if opening[4] else ")"):
            return False
        if token == ",":
            self.waiting[-1] = (*opening[:4], False)
            return True
        self.waiting.pop()
        if opening[1] is not None:
            self.close_call(opening)
        return True

    def leaf(self, token: str, at: int) -> bytes:
        """The record of a literal or a variable. Those that are the same in every text are kept."""
        if token[:1].isdigit():
            record = record_bytes(CONSTANT, 0, 1, self.width, self.literal(token, at))
        elif NAME.fullmatch(token) and token.lower() not in RESERVED:
            number = self.number(token, at)
            record = record_bytes(VARIABLE, number, 1, self.width, 0)
            if token != variable_text(number):
                return record
        else:
            self.wrong(at, OPERAND)
        leaves = LEAVES[self.width]
        if len(leaves) >= MOST_KEPT:
            leaves.clear()
        leaves[token] = record
        return record

    def literal(self, token: str, at: int) -> int:
        try:
            return literal_value(token)
        except BadWord as bad:
            raise BadText(self.place(at), bad.message, bad.hint) from None

    def number(self, name: str, at: int) -> int:
        """The number of a variable: its own, or the lowest one that no other has."""
        number = variable_number(name)
        if number is None:
            if name[0] == "v" and name[1:].isdigit():
                raise BadText(self.place(at), f'unknown name "{clip(name)}"',
                              f"v and digits are variables by number, v0 to v{MOST_VARIABLES - 1}")
            number = self.given_number(name, at)
        if name != variable_text(number):
            self.names[number] = name
        return number

    def given_number(self, name: str, at: int) -> int:
        if self.numbering is None:
            self.numbering = Numbering(self.tokens)
        number = self.numbering.number(name)
        if number is None:
            raise BadText(self.place(at), f'no number is left for "{clip(name)}"',
                          f"there are {MOST_VARIABLES:,} variables")
        return number

    def shift_right(self, at: int) -> None:
        count = self.take_count(at, 255)
        self.records.pop()
        self.places.pop()
        self.sizes[-1] += 1
        self.records.append(record_bytes(SHR, count, self.sizes[-1] & 0xFFFF, self.width, 0))
        self.places.append(at)

    def shift_left(self, at: int) -> None:
        """The count becomes the factor."""
        factor = 1 << self.take_count(at, MOST_SHIFT)
        self.records[-1] = record_bytes(CONSTANT, 0, 1, self.width, factor)

    def take_count(self, at: int, most: int) -> int:
        """The shift count is a literal."""
        size = self.sizes.pop()
        kind, _, _, _, _, literal = LAYOUT.unpack(self.records[-size])
        if size > 1 or kind != CONSTANT or literal > most:
            hint = ""
            if size > 1 and kind == CONSTANT:
                hint = "* + - bind tighter than a shift: write (x >> n) in parentheses"
            raise BadText(self.place(at + 1), f"expected a shift count, a literal from 0 to {most}",
                          hint)
        return int(literal)

    def open_call(self, at: int) -> int:
        """The part of a cast before its operand: zext(16, or concat( . Gives the next place."""
        kind = CASTS_BY_NAME[self.tokens[at]]
        self.expect(at + 1, "(")
        if kind == CONCAT:
            self.waiting.append((0, kind, at, 0, True))
            return at + 2
        word = self.tokens[at + 2]
        width = self.literal(word, at + 2) if word[:1].isdigit() else 256
        if width > 255:
            self.wrong(at + 2, "a width from 0 to 255, a literal")
        self.expect(at + 3, ",")
        self.waiting.append((0, kind, at, width, False))
        return at + 4

    def expect(self, at: int, symbol: str) -> None:
        if self.tokens[at] != symbol:
            self.wrong(at, f'"{symbol}"')

    def close_call(self, opening: Waiting) -> None:
        _, kind, at, argument, _ = opening
        if kind == CONCAT:
            right = self.sizes.pop()
            self.sizes[-1] += right
        self.sizes[-1] += 1
        size = self.sizes[-1] & 0xFFFF
        self.records.append(record_bytes(kind, argument, size, self.width, 0))
        self.places.append(at)

    def place(self, at: int) -> int:
        return token_place(self.text, at)

    def wrong_operator(self, at: int) -> NoReturn:
        """An operator was to come, or what closes the innermost opening."""
        inner = self.waiting[-1]
        if inner is BOTTOM:
            self.wrong(at, f"{OPERATOR} or the end of the text", operator=True)
        _, kind, opened_at, _, comma = inner
        line, column = line_and_column(self.text, self.place(opened_at))
        closing = '","' if comma else '")"'
        opened = '"("' if kind is None else f'"{KIND_NAMES[kind].lower()}("'
        self.wrong(at, f"{OPERATOR} or {closing} for the {opened} of line {line}, column {column}",
                   operator=True)

    def wrong(self, at: int, expected: str, operator: bool = False) -> NoReturn:
        token, place = self.tokens[at], self.place(at)
        found = f'"{clip(token)}"' if token else "the end of the text"
        hint = HINTS.get(token.lower(), "")
        if not self.text.strip():
            hint = "the text is empty"
        elif operator and not hint and (NAME.match(token) or token[:1].isdigit() or token == "("):
            hint = self.missing_operator(at)
        raise BadText(place, f"expected {expected}, found {found}", hint)

    def missing_operator(self, at: int) -> str:
        """A hint where an operand stands right behind another."""
        line, _ = line_and_column(self.text, self.place(at))
        before, _ = line_and_column(self.text, self.place(at - 1))
        if line > before:
            return (f"the text reads on from line {before}; for one expression a line:"
                    " hogzelt shorten -f FILE")
        if self.tokens[at] == "(" and NAME.fullmatch(self.tokens[at - 1]):
            return "there are no functions; a product is written with *"
        return "a product is written with *"
