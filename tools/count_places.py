#!/usr/bin/env python3
"""Counts the places in crates/*/src that still have an older form (docs/DESIGN-PASS.md), a line for each point.

tools/count_places.py            the counts
tools/count_places.py --list     each place too, as file:line: text
"""
import pathlib
import re
import sys

ROOT = pathlib.Path(__file__).resolve().parent.parent

# For each point, searches over single lines of src/. A line counts once for each search that it meets.
SEARCHES = {
    "1 a flag beside a value": r"^\s+(pub )?(found|valid|ok|full|more|turned|linear|first|flag|free): bool,",
    "1 an own enum of the shape of Option or Result": r"enum (Joined|Found|Maybe)\b",
    "1 a number for a refusal": r"\brefusal: u(8|64)\b|refus(al|e|ed)(_\w+)?\([^)]*\)? -> u(8|64)|refus(e|ed)\((out, |sheet, )?\d+\)"
                                r"|(MALFORMED|DAYS_NOT_RISING)\w*: u64|\.refusal != 0|number (!=|==) \d",
    "1 a number for a kind or a pass": r"\b(k|kind|head\.kind|pass|record::kind\([&a-z_\[\]. ]+\)) (==|!=|<|<=) \d+\b|\b\d+ < (k|head\.kind)\b"
                                       r"|match (k|kind) \{",
    "1 a mark as a number": r"const (LIVE|CONSUMED|WIDENED|REWRITTEN): u8|\bmarks?: (u8|&'a \[u8;|\[u8;)",
    "1 a number that says none": r"return n;$|return NO_VAR;$|== n \{$|NO_VAR\b.*\{$|(second|third|first): n,$",
    "3 a counted loop": r"^\s*(while .*\{|loop \{)$",
    "4 equality, copying, conversion by hand": r"fn (same_bytes|same_words|same_key|clear|clear_words|put_bytes|put_words|fill|lower|wide|byte"
                                               r"|either|flag|flag_number|read_u16|read_u32|read_u64|all_zero|zero_from|text|number|name|answer)\b",
    "6 words at computed offsets": r"_WORDS \*|_WORDS:|\b(at|v|from) \+ \d\]|made\[\d\]|\[u64; (7|9|6)\]",
    "7 a switch on which step to run": r"if pass == \d|match kind \{",
}


def lines():
    for path in sorted(ROOT.glob("crates/*/src/**/*.rt")):
        for number, line in enumerate(path.read_text().splitlines(), 1):
            yield path.relative_to(ROOT), number, line


def functions():
    """(crate, file, name, text) of each function, by its head up to the body."""
    for path in sorted(ROOT.glob("crates/*/src/**/*.rt")):
        text = path.read_text()
        for match in re.finditer(r"fn (\w+)[^;{]*?\(", text):
            head = text[match.start():]
            end = re.search(r"\n\s*\{\n|\{ *\n", head)
            yield path.relative_to(ROOT), match.group(1), head[: end.start() if end else 400]


def conjuncts(head):
    """The facts of a function's `requires`, each by itself, with its argument names as they stand."""
    for clause in re.findall(r"requires(?: \w+)? \{(.*?)\}\s*(?:ensures|requires|$)", head, re.S):
        for fact in re.split(r" × ", " ".join(clause.split())):
            yield fact.strip().strip("()").strip()


def repeated_facts():
    seen = {}
    for path, name, head in functions():
        for fact in set(conjuncts(head)):
            shape = re.sub(r"\b[a-z_]+\.(now|old)\b", "_.now", fact)
            seen.setdefault(shape, []).append(f"{path}: {name}")
    return {fact: places for fact, places in seen.items() if len(places) >= 3}


def travelling():
    """Three or more parameters, of the same names and types in the same order, in three or more functions."""
    seen = {}
    for path, name, head in functions():
        inside = head[head.index("(") + 1:]
        inside = re.split(r"\)\s*(->|\n|requires|ensures|$)", inside, 1)[0]
        params = [" ".join(p.split()) for p in re.split(r",(?![^\[\]]*\])", inside) if ":" in p]
        for size in (3, 4, 5, 6):
            for start in range(len(params) - size + 1):
                seen.setdefault(tuple(params[start: start + size]), set()).add(f"{path}: {name}")
    often = {group: places for group, places in seen.items() if len(places) >= 3}
    longest = {}
    for group, places in often.items():
        if not any(len(other) > len(group) and places <= often[other] and
                   any(other[i: i + len(group)] == group for i in range(len(other) - len(group) + 1)) for other in often):
            longest[group] = sorted(places)
    return longest


def main():
    listing = "--list" in sys.argv[1:]
    for point, search in SEARCHES.items():
        places = [(p, n, t) for p, n, t in lines() if not t.lstrip().startswith("//") and re.search(search, t)]
        print(f"{len(places):4}  {point}")
        if listing:
            for path, number, text in places:
                print(f"        {path}:{number}: {text.strip()}")
    facts = repeated_facts()
    print(f"{len(facts):4}  5 a fact in the requires of three or more functions ({sum(map(len, facts.values()))} places)")
    groups = travelling()
    print(f"{len(groups):4}  5 parameters that travel together ({len(set().union(*groups.values())) if groups else 0} functions)")
    if listing:
        for fact, places in sorted(facts.items(), key=lambda x: -len(x[1])):
            print(f"        {len(places):3}  {fact}")
        for group, places in sorted(groups.items(), key=lambda x: -len(x[1])):
            print(f"        {len(places):3}  {', '.join(group)}")
    answers = sum(len(re.findall(r"^pub ", p.read_text(), re.M)) for p in ROOT.glob("crates/*/proofs/**/Answers.antt"))
    print(f"{answers:4}  8 answers in proof files")


if __name__ == "__main__":
    main()
