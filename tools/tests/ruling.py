"""A model of rules 2 from the request's words, on trees (kind, argument or literal, children), and
texts that rules 2 often take."""

from samples import any_text

from hogzelt.records import (
    ADD, AND, ARITY, CONSTANT, MUL, NEG, NOT, OR, SHR, VARIABLE, XOR, Expression, Record,
    expression_bytes, tree_records,
)


def tree_of(records):
    stack = []
    for kind, argument, _, literal in records:
        below = [stack.pop() for _ in range(ARITY[kind])][::-1]
        stack.append((kind, literal if kind == CONSTANT else argument, *below))
    return stack.pop()


def records_of(tree):
    kind, own, *below = tree
    records = [record for child in below for record in records_of(child)]
    argument, literal = (0, own) if kind == CONSTANT else (own, 0)
    return [*records, Record(kind, argument, len(records) + 1, literal)]


def some(tree, kinds):
    return tree[0] in kinds or any(some(child, kinds) for child in tree[2:])


def number_of(tree, width):
    """The value of a tree without a variable."""
    kind, own, *below = tree
    values = [number_of(child, width) for child in below]
    found = {
        CONSTANT: lambda: own, ADD: lambda: sum(values), MUL: lambda: values[0] * values[1],
        AND: lambda: values[0] & values[1], OR: lambda: values[0] | values[1],
        XOR: lambda: values[0] ^ values[1], NOT: lambda: ~values[0], NEG: lambda: -values[0],
        SHR: lambda: values[0] >> own,
    }[kind]()
    return found % (1 << width)


def literals_first(tree, width, is_below=False):
    """A variable-free subtree below a bitwise operator, a literal included, as one literal."""
    if is_below and not some(tree, (VARIABLE,)):
        return CONSTANT, number_of(tree, width)
    kind, own, *below = tree
    is_below = is_below or kind in (AND, OR, XOR, NOT)
    return (kind, own, *(literals_first(child, width, is_below) for child in below))


def nots_then(tree):
    """Each Not with an Add, Mul or Neg below it as -e - 1."""
    kind, own, *below = tree
    rewritten = [nots_then(child) for child in below]
    if kind == NOT and some(below[0], (ADD, MUL, NEG)):
        return ADD, 0, (NEG, 0, *rewritten), (NEG, 0, (CONSTANT, 1))
    return (kind, own, *rewritten)


def rewritten(data, width):
    """The bytes of the expression as rules 2 rewrite it; none where it is longer than a file."""
    tree = tree_of(tree_records(data))
    records = records_of(nots_then(literals_first(tree, width)))
    return expression_bytes(Expression(width, records)) if len(records) <= 1024 else None


def ruled_text(source, depth, width, names=("a", "b")):
    """A text that rules 2 often take and rules 1 do not: sums, products by numbers and Nots over
    them, and atoms with numbers in them that are written as sums, or are not cut."""
    choice = source.randrange(8) if depth else 7
    if choice < 3:
        return f"~({ruled_text(source, depth - 1, width, names)})"
    if choice < 5:
        left, right = (ruled_text(source, source.randrange(depth), width, names) for _ in range(2))
        return f"({left}) {source.choice('+-')} ({right})"
    if choice < 6:
        return f"{source.getrandbits(width)}*({ruled_text(source, depth - 1, width, names)})"
    if choice < 7:
        return any_text(source, min(depth, 3), width, names)
    uncut = str(source.getrandbits(min(width + 2, 64)))
    number = source.choice(("-1", "(1 + 2)", "~(2 - 5)", uncut, "3"))
    atom = f"{source.choice(names)} {source.choice('&|^')} {number}"
    return source.choice((source.choice(names), atom, f"~({atom})", f"({atom}) ^ {names[0]}"))
