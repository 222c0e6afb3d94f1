#!/usr/bin/env python3
"""The judge beside solvers of bit vectors: whether two expressions of three variables at 64 bits have the
same value under every assignment. Makes the same pairs in every run, gives each pair to the library's
hogzelt_judge and, as SMT-LIB, to each solver, and prints a table (docs/JUDGE.md).

    HOGZELT_SO=libhogzelt.so tools/beside_solvers.py [--by judge,z3,cvc5] [--seconds 10] [--write DIR]

A solver is a command that takes a file in SMT-LIB 2 and prints sat or unsat; its time is the processor time
of its process, and past the limit it is ended and has not decided the pair. The judge's time is that of one
call from Python, the least of some rounds. Where the judge says that a pair differs, the two are evaluated here
under its assignment. Ends with 1 where an answer is wrong or where this evaluation does not tell the two
apart.
"""

from __future__ import annotations

import argparse
import os
import random
import resource
import shutil
import signal
import statistics
import subprocess
import sys
import tempfile
import time
from ctypes import POINTER, byref, c_char_p, c_size_t, c_uint64
from typing import Callable, Iterator, NamedTuple

sys.path.insert(0, os.path.join(os.path.dirname(os.path.realpath(__file__)), "..", "bindings", "python"))

from hogzelt import BadText, NoLibrary, Refused, parse, shorten  # noqa: E402
from hogzelt.fold import node_value  # noqa: E402
from hogzelt.library import load  # noqa: E402
from hogzelt.records import (  # noqa: E402
    ADD, AND, ARITY, CONSTANT, MUL, NEG, NOT, OR, RECORD, SHR, VARIABLE, XOR, Record, tree_records,
)

SEED = 102
WIDTH = 64
ONES = (1 << WIDTH) - 1
NAMES = ("x", "y", "z")
ROWS = 1 << len(NAMES)
# the table of each variable: bit i is its bit in row i
TABLES = dict(zip(NAMES, (0b10101010, 0b11001100, 0b11110000)))
ALL_ROWS = (1 << ROWS) - 1

SHORTENED, REWRITTEN, CHANGED = 30, 12, 12
ROUNDS, CALLS = 15, 200

OPERATORS = {
    ADD: "bvadd", MUL: "bvmul", AND: "bvand", OR: "bvor", XOR: "bvxor", NOT: "bvnot", NEG: "bvneg", SHR: "bvlshr",
}


class Pair(NamedTuple):
    """Two expressions as bytes, and whether they are equal, which is known from how they were made."""

    name: str
    left: bytes
    right: bytes
    equal: bool


class Answer(NamedTuple):
    """Whether the pair is equal, None where that was not decided, and the seconds that it took."""

    equal: bool | None
    seconds: float


Engine = Callable[[Pair], Answer]


# The pairs.

def number(rng: random.Random) -> int:
    """A coefficient that is not 0: small, negative or of any size."""
    value = rng.choice((rng.randrange(1, 16), -rng.randrange(1, 16), rng.getrandbits(WIDTH)))
    return value % (1 << WIDTH) or 1


def mask(rng: random.Random) -> str:
    """A literal with a run of ones, or with any bits."""
    low, high = sorted(rng.sample(range(WIDTH + 1), 2))
    return hex(rng.choice(((1 << high) - (1 << low), rng.getrandbits(WIDTH))))


def bitwise(rng: random.Random, depth: int, masks: bool) -> str:
    """A text of variables and & | ^ ~, with literals where masks are asked for."""
    if depth == 0:
        return mask(rng) if masks and rng.randrange(4) == 0 else rng.choice(NAMES)
    left, right = bitwise(rng, depth - 1, masks), bitwise(rng, rng.randrange(depth), masks)
    text = f"({left} {rng.choice('&|^')} {right})"
    return "~" + text if rng.randrange(3) == 0 else text


def sum_text(constant: int, terms: list[tuple[int, str]]) -> str:
    return " + ".join([str(constant % (1 << WIDTH))] + [f"{c % (1 << WIDTH)}*{atom}" for c, atom in terms])


def data(text: str) -> bytes:
    return parse(text, WIDTH).data


def shortened(rng: random.Random) -> Iterator[Pair]:
    """A sum of four to eight numbers times bitwise texts, and the sum that the library's passes make of it."""
    while True:
        terms = [(number(rng), bitwise(rng, rng.randrange(1, 4), True)) for _ in range(rng.randrange(4, 9))]
        text = sum_text(number(rng), terms)
        try:
            left, right = data(text), data(str(shorten(text, WIDTH)))
        except (BadText, Refused):
            continue
        if left != right and len(variables(left)) == len(NAMES):
            yield Pair("shortened", left, right, True)


def table(atom: str) -> int:
    """The truth table of a text of variables and & | ^ ~, row i in bit i."""
    return int(eval(atom, {"__builtins__": {}}, TABLES)) & ALL_ROWS


def basis(rng: random.Random, avoided: set[str]) -> list[str]:
    """Seven atoms, none of those avoided, whose tables and that of all ones are independent modulo 2: every
    list of numbers for the eight rows is one sum of numbers times these."""
    atoms: list[str] = []
    reduced = [ALL_ROWS]
    while len(atoms) < ROWS - 1:
        atom = bitwise(rng, rng.randrange(1, 4), False)
        rest = table(atom)
        for one in reduced:
            rest = min(rest, rest ^ one)
        if rest and atom not in avoided:
            atoms.append(atom)
            reduced = sorted([min(one, one ^ rest) for one in reduced] + [rest], reverse=True)
    return atoms


def solved(tables: list[int], numbers: list[int]) -> list[int]:
    """The coefficients of the tables, whose matrix is odd, that give these numbers by rows, modulo 2^64."""
    rows = [[bits >> row & 1 for bits in tables] + [numbers[row]] for row in range(ROWS)]
    for place in range(ROWS):
        pivot = next(row for row in range(place, ROWS) if rows[row][place] & 1)
        rows[place], rows[pivot] = rows[pivot], rows[place]
        inverse = pow(rows[place][place], -1, 1 << WIDTH)
        rows[place] = [value * inverse & ONES for value in rows[place]]
        for row in range(ROWS):
            if row != place:
                times = rows[row][place]
                rows[row] = [(a - times * b) & ONES for a, b in zip(rows[row], rows[place])]
    return [row[ROWS] for row in rows]


def rewritten(rng: random.Random) -> Iterator[Pair]:
    """A sum of four to seven numbers times atoms without literals, and the same over a basis of other atoms."""
    while True:
        atoms = list(dict.fromkeys(bitwise(rng, rng.randrange(1, 4), False) for _ in range(rng.randrange(4, 8))))
        terms = [(number(rng), atom) for atom in atoms]
        numbers = [sum(c * (table(atom) >> row & 1) for c, atom in terms) & ONES for row in range(ROWS)]
        others = basis(rng, set(atoms))
        constant, *factors = solved([ALL_ROWS, *map(table, others)], numbers)
        # all ones at all places is -1
        right = sum_text(-constant, [(c, atom) for c, atom in zip(factors, others) if c])
        left = data(sum_text(0, terms))
        if len(variables(left)) == len(NAMES):
            yield Pair("rewritten", left, data(right), True)


def changed(rng: random.Random, pairs: list[Pair]) -> Iterator[Pair]:
    """These pairs with one bit of one literal of the right turned, where that changes a value that is seen
    under one of some random assignments."""
    for pair in pairs:
        while True:
            right = bytearray(pair.right)
            at = rng.choice([i for i in range(0, len(right), RECORD) if right[i] == CONSTANT])
            bit = rng.randrange(WIDTH)
            right[at + 8 + bit // 8] ^= 1 << bit % 8
            found = Pair("changed", pair.left, bytes(right), False)
            if any(tells_apart(found, words) for words in assignments(rng, pair)):
                yield found
                break


def assignments(rng: random.Random, pair: Pair) -> Iterator[dict[int, int]]:
    for _ in range(1000):
        yield {variable: rng.getrandbits(WIDTH) for variable in joint(pair)}


def all_pairs() -> list[Pair]:
    rng = random.Random(SEED)
    first, second = shortened(rng), rewritten(rng)
    equal = [next(first) for _ in range(SHORTENED)] + [next(second) for _ in range(REWRITTEN)]
    return equal + list(changed(rng, equal[::len(equal) // CHANGED][:CHANGED]))


# Expressions by their records.

def variables(expression: bytes) -> set[int]:
    return {record.argument for record in tree_records(expression) if record.kind == VARIABLE}


def joint(pair: Pair) -> list[int]:
    return sorted(variables(pair.left) | variables(pair.right))


def value(expression: bytes, words: dict[int, int]) -> int:
    stack: list[int] = []
    for record in tree_records(expression):
        if record.kind == CONSTANT:
            stack.append(record.literal & ONES)
        elif record.kind == VARIABLE:
            stack.append(words[record.argument])
        else:
            below = [stack.pop() for _ in range(ARITY[record.kind])][::-1]
            stack.append(node_value(record.kind, record.argument, below, WIDTH))
    return stack[0]


def tells_apart(pair: Pair, words: dict[int, int]) -> bool:
    return value(pair.left, words) != value(pair.right, words)


def smt_term(expression: bytes) -> str:
    stack: list[str] = []
    for record in tree_records(expression):
        if record.kind == CONSTANT:
            stack.append(f"(_ bv{record.literal & ONES} {WIDTH})")
        elif record.kind == VARIABLE:
            stack.append(f"v{record.argument}")
        else:
            stack.append(smt_node(record, [stack.pop() for _ in range(ARITY[record.kind])][::-1]))
    return stack[0]


def smt_node(record: Record, below: list[str]) -> str:
    count = [f"(_ bv{record.argument} {WIDTH})"] if record.kind == SHR else []
    return f"({' '.join([OPERATORS[record.kind], *below, *count])})"


def smt_file(pair: Pair) -> str:
    lines = ["(set-logic QF_BV)"]
    lines += [f"(declare-const v{variable} (_ BitVec {WIDTH}))" for variable in joint(pair)]
    lines += [f"(assert (distinct {smt_term(pair.left)} {smt_term(pair.right)}))", "(check-sat)"]
    return "\n".join(lines) + "\n"


# Who decides.

def judge() -> Engine:
    """The library's judge, which must answer every pair; what it names as unlike is evaluated."""
    call = load().hogzelt_judge
    call.argtypes = [c_char_p, c_size_t, c_char_p, c_size_t] + [POINTER(c_uint64)] * 3
    call.restype = c_uint64

    def decide(pair: Pair) -> Answer:
        equal, place, index = c_uint64(), c_uint64(), c_uint64()
        given = (pair.left, len(pair.left), pair.right, len(pair.right), byref(equal), byref(place), byref(index))
        refusal = call(*given)
        if refusal:
            raise SystemExit(f"beside_solvers: the judge refuses a pair by {refusal}")
        words = {v: (index.value >> j & 1) << place.value for j, v in enumerate(joint(pair))}
        if not equal.value and not tells_apart(pair, words):
            raise SystemExit("beside_solvers: the judge's assignment does not tell a pair apart")
        return Answer(bool(equal.value), least_time(lambda: call(*given)))

    return decide


def least_time(call: Callable[[], object]) -> float:
    """The seconds of one call, in the best of some rounds."""
    best = float("inf")
    for _ in range(ROUNDS):
        start = time.perf_counter()
        for _ in range(CALLS):
            call()
        best = min(best, (time.perf_counter() - start) / CALLS)
    return best


def solver(command: str, limit: int, directory: str) -> Engine:
    """A solver, which is given the pair as a file. The system ends it at the limit of processor time."""
    path = os.path.join(directory, "pair.smt2")

    def decide(pair: Pair) -> Answer:
        with open(path, "w", encoding="ascii") as file:
            file.write(smt_file(pair))
        before = spent()
        run = subprocess.run(
            [command, path], capture_output=True, text=True, check=False,
            preexec_fn=lambda: resource.setrlimit(resource.RLIMIT_CPU, (limit, limit)),
        )
        if -run.returncode in (signal.SIGXCPU, signal.SIGKILL):
            return Answer(None, limit)
        said = run.stdout.strip()
        if said not in ("sat", "unsat"):
            raise SystemExit(f"beside_solvers: {command} says {said or run.stderr.strip()!r}")
        return Answer(said == "unsat", spent() - before)

    return decide


def spent() -> float:
    """The seconds of processor time of all processes that were started here and have ended."""
    usage = resource.getrusage(resource.RUSAGE_CHILDREN)
    return usage.ru_utime + usage.ru_stime


# What is printed.

def shown(seconds: float) -> str:
    for least, factor, unit in ((1.0, 1, "s"), (1e-3, 1e3, "ms")):
        if seconds >= least:
            return f"{seconds * factor:.3g} {unit}"
    return f"{seconds * 1e6:.1f} µs"


def row(name: str, by: str, answers: list[Answer], limit: int) -> str:
    """Decided, the median of all with the limit for those that were not, and the most of those decided."""
    decided = [answer.seconds for answer in answers if answer.equal is not None]
    median = statistics.median(answer.seconds for answer in answers)
    middle = shown(median) if median < limit else f"over {limit} s"
    most = shown(max(decided)) if decided else "none"
    return f"| {name} | {by} | {len(decided)} of {len(answers)} | {middle} | {most} |"


def main() -> int:
    options = argparse.ArgumentParser(description="The judge beside solvers of bit vectors.")
    options.add_argument("--by", default="judge,z3,cvc5", help="who decides, parted by commas")
    options.add_argument("--seconds", type=int, default=10, help="the limit of a solver for a pair")
    options.add_argument("--write", metavar="DIR", help="write the pairs as SMT-LIB into DIR, and end")
    given = options.parse_args()
    pairs = all_pairs()
    if given.write:
        os.makedirs(given.write, exist_ok=True)
        for place, pair in enumerate(pairs):
            with open(os.path.join(given.write, f"{place:02}_{pair.name}.smt2"), "w", encoding="ascii") as file:
                file.write(smt_file(pair))
        return 0
    names = given.by.split(",")
    for name in names:
        if name != "judge" and not shutil.which(name):
            raise SystemExit(f"beside_solvers: there is no command {name}; --by names others")
    wrong = 0
    print("| pairs | by | decided | median | most of those decided |\n|---|---|---|---|---|")
    with tempfile.TemporaryDirectory() as directory:
        for by in names:
            decide = judge() if by == "judge" else solver(by, given.seconds, directory)
            answers = [decide(pair) for pair in pairs]
            for name in dict.fromkeys(pair.name for pair in pairs):
                some = [answer for answer, pair in zip(answers, pairs) if pair.name == name]
                print(row(name, by, some, given.seconds), flush=True)
            wrong += sum(a.equal is not None and a.equal != p.equal for a, p in zip(answers, pairs))
    sizes = sorted((len(pair.left) + len(pair.right)) // RECORD for pair in pairs)
    print(f"{len(pairs)} pairs of {sizes[0]} to {sizes[-1]} records, {wrong} wrong answers")
    return 1 if wrong else 0


if __name__ == "__main__":
    try:
        sys.exit(main())
    except NoLibrary as bad:
        sys.exit(f"beside_solvers: {bad}")
