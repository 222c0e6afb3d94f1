#!/usr/bin/env python3
"""Holds the exports for C to the library: each public function of crates/hogzelt/src is exported by crates/hogzelt_c/src
under its name, with the same parameters, result and clauses word for word, does nothing but call it with its parameters
in their order, and is declared in include/hogzelt.h; and nothing else is exported. So what is proved of the one, in its
contract and in crates/hogzelt/proofs, is said of the other too. Prints one line and ends with 0, or a line for each
fault and ends with 1.
"""

import os
import re
import sys

LIBRARY, EXPORTS, HEADER = "crates/hogzelt/src/lib.rt", "crates/hogzelt_c/src/lib.rt", "include/hogzelt.h"
COMMENT = re.compile(r"//[^\n]*")
EXPORTED = '#[unsafe(no_mangle)] pub extern "C"'
FUNCTION = re.compile(
    r"^(?P<head>(?:#\[[^\n]*\]\n)*[a-z][^\n(]*?)\bfn (?P<name>\w+)\((?P<signature>[^)]*)\)(?P<contract>.*?)\n\{\n(?P<body>.*?)\n\}$",
    re.M | re.S)
IMPORT = re.compile(r"^ghost use ([^;{]+)\.\{([^}]*)\};", re.M)


def read(path: str) -> str:
    with open(path, encoding="utf-8") as source:
        return source.read()


def flat(text: str) -> str:
    """The text with one blank between words, whatever the lines, and no comma behind the last parameter."""
    return " ".join(text.split()).removesuffix(",")


def functions(text: str) -> dict[str, re.Match]:
    """The functions at the margin, by name, each with what stands before `fn` as its head."""
    return {match["name"]: match for match in FUNCTION.finditer(COMMENT.sub("", text))}


def imports(text: str) -> dict[str, str]:
    """Where each name comes from that a contract can use."""
    found = {}
    for path, names in IMPORT.findall(text):
        for name in names.split(","):
            found[name.strip()] = path
    return found


def check(library: str, exports: str, header: str) -> tuple[int, list[str]]:
    faults = []
    given = {name: it for name, it in functions(library).items() if flat(it["head"]) == "pub"}
    made = functions(exports)
    known, here = imports(library), imports(exports)
    faults += [f"{EXPORTS}: {name} is imported from {path}, and in {LIBRARY} from {known.get(name, 'nowhere')}"
               for name, path in here.items() if known.get(name) != path]
    faults += [f"{EXPORTS}: {name} of {LIBRARY} is not exported" for name in given if name not in made]
    for name, it in made.items():
        if flat(it["head"]) != EXPORTED:
            faults.append(f'{EXPORTS}: {name} stands behind {flat(it["head"])!r}')
        if name not in given:
            faults.append(f"{EXPORTS}: {name} is no public function of {LIBRARY}")
            continue
        for part in ("signature", "contract"):
            if flat(it[part]) != flat(given[name][part]):
                faults.append(f"{EXPORTS}: {name} has another {part} than in {LIBRARY}")
        names = [one.split(":")[0].strip() for one in it["signature"].split(",") if one.strip()]
        call = f"hogzelt::{name}({', '.join(names)})"
        if flat(it["body"]) != call:
            faults.append(f"{EXPORTS}: the body of {name} is not {call}")
        if not re.search(rf"\b{name}[ \t]*\(", header):
            faults.append(f"{HEADER} does not declare {name}")
    if not given or exports.count("no_mangle") != len(made):
        faults.append(f"{LIBRARY} or {EXPORTS} has a function that cannot be read here")
    return len(made), faults


def main() -> int:
    os.chdir(os.path.join(os.path.dirname(os.path.abspath(__file__)), ".."))
    count, faults = check(read(LIBRARY), read(EXPORTS), read(HEADER))
    for fault in faults:
        print(f"check_exports: {fault}", file=sys.stderr)
    if faults:
        return 1
    print(f"check_exports: {count} exports, each as the library has it")
    return 0


if __name__ == "__main__":
    sys.exit(main())
