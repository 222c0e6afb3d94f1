#!/usr/bin/env python3
"""Spells this repository's own definitions, lemmas and fields in snake case, as the library does.

usage: tools/snake_names.py [--check]

It was run once, right after the kit's port.py, over specs/, proofs/ and the clauses of src/: modAdd is mod_add now, and
add-comm add_comm. Whole words alone turn. Names of Rust functions, of types and modules, of exported functions and of
what Rattle generates keep their spelling. With --check it writes nothing. A line that begins 'meets:' names a new spelling
that stood in a file already, or that two names share. A second run changes nothing.
"""

import collections
import glob
import os
import re
import sys

TOP = os.path.join(os.path.dirname(os.path.realpath(__file__)), "..")
WORD = r"[^\s(){}.;,@\"«»\[\]\\\u0060]+"
MODIFIERS = r"(?:(?:unfoldable|abbrev|pub|mutual) )*"
COMMENT = re.compile(r"(?m)(?:(?<=\s)|^)--.*$")
# Lemmas that would have the name of a function of the library's.
LEMMAS = {"bit-and", "bit-or", "bit-xor"}
# Lemmas that port.py spelled like a function that is in camel case until now, each with the files that have it.
SPELLED = {
    "bits_below": "arith/proofs/BitLaws arith/proofs/MaskLaws truth/proofs/RowsLaws truth/proofs/TruthLaws",
    "both_bytes": "register/proofs/BuiltLaws",
    "entry_row": "register/proofs/EntryLaws register/proofs/AppendedLaws",
    "first_rows": "views/proofs/FirstRowsLaws views/proofs/NextBasisLaws views/proofs/bases/find_bases/Proof"
    " group/proofs/PassLaws register/proofs/SharedLaws",
    "kept_row": "views/proofs/ViewsLaws views/proofs/ReadLaws",
    "mask_at": "partition_laws/proofs/ColumnsLaws",
    "minus_one": "rules_laws/proofs/NotsLaws",
    "numbers_of": "claims/proofs/NormalizedLaws",
    "only_at": "judge_laws/proofs/PlacesLaws judge_laws/proofs/SingleLaws",
    "place_at": "ways/proofs/PlaceLaws",
    "right_side": "descent/proofs/AddLaws ways/proofs/SideLaws",
    "row_here": "bare/proofs/SearchLaws",
    "rows_ok": "",
    "same_outcome": "claims/proofs/HeadsLaws",
    "xor_bytes": "pairing/proofs/XoredLaws",
}


def snake(name):
    name = name.replace("getD", "get_or")
    words = re.sub(r"(?<=[a-z0-9₀-₉])[A-Z]", lambda m: "_" + m[0].lower(), name)
    return words.replace("-", "_")


def is_odd(name):
    return name[:1].isalpha() and name[0].islower() and bool(re.search("[A-Z]|-", name))


def declared(text, is_proof):
    """Returns what a text declares: top-level names, fields and local names, but not the answers to generated goals."""
    out = set()
    for line in COMMENT.sub("", text).split("\n"):
        m = re.match(rf"\s*{MODIFIERS}({WORD})(?: \{{[^{{}}]*\}})* :(?: (.*))?$", line)
        if m and is_odd(m[1]) and not (is_proof and re.search(r"\b(?:tie|goal)\.|\bstatement\b", m[2] or "")):
            out.add(m[1])
    return out


def spelled(path):
    """Returns the lemmas of SPELLED that a file has, each with its new name."""
    here = os.path.relpath(path, f"{TOP}/crates")[: -len(".antt")]
    return {it: it + "_lem" for it, files in SPELLED.items() if not files and path.endswith(".antt") or here in files.split()}


def foreign(text):
    """Returns the names that a text imports from a library."""
    out = set()
    for path, items in re.findall(r"use ([\w.+]+)\.\{([^}]*)\}", text):
        steps = path.split(".")
        if steps[0] != "Rattle" or not os.path.isdir(f"{TOP}/crates/{steps[1]}"):
            out.update(it.split(" as ")[-1].strip() for it in items.split(","))
    return out


def read(path):
    with open(path, encoding="utf-8") as f:
        return f.read()


def turned(text, names, comment):
    """Returns the text with each word of names spelled anew; in comments only what is in camel case or in backquotes."""

    out, at = [], 0
    for m in comment.finditer(text):
        out.append(re.sub(WORD, lambda w, base=at: one(w, text, base, names), text[at : m.start()]))
        out.append(re.sub(r"(?<![\w-])[a-z]\w*[A-Z]\w*(?![\w-])|(?<=\u0060)[\w-]+(?=\u0060)", lambda w: names.get(w[0], w[0]), m[0]))
        at = m.end()
    out.append(re.sub(WORD, lambda w: one(w, text, at, names), text[at:]))
    return "".join(out)


def one(m, text, base, names):
    start = base + m.start()
    if re.search(r"(?:tie|lts|reads)\.$", text[max(0, start - 6) : start]):
        return m[0]
    return names.get(m[0], m[0])


def main():
    check = "--check" in sys.argv[1:]
    antt = sorted(
        glob.glob(f"{TOP}/crates/*/specs/**/*.antt", recursive=True)
        + glob.glob(f"{TOP}/crates/*/proofs/**/*.antt", recursive=True)
    )
    rust = sorted(glob.glob(f"{TOP}/crates/*/src/**/*.rt", recursive=True))
    texts = {p: read(p) for p in antt + rust}
    names, plain = {}, set()
    for p in antt:
        if not p.endswith("/Proof.antt"):
            plain |= {m[1] for m in re.finditer(rf"(?m)^\s*{MODIFIERS}({WORD})(?: \{{[^{{}}]*\}})* :", texts[p])} - set(SPELLED)
    plain = {it for it in plain if not is_odd(it)}
    for p in antt:
        for name in declared(texts[p], p.endswith("/Proof.antt")):
            names[name] = snake(name)
    # A lemma that would have its function's name gets _lem, as in the library.
    functions = {names[it] for it in names if "-" not in it} | plain
    for it in names:
        if it in LEMMAS or "-" in it and names[it] in functions:
            names[it] += "_lem"

    def renamed(path):
        stays = foreign(texts[path])
        return {old: new for old, new in {**names, **spelled(path)}.items() if old not in stays}

    by_new = collections.defaultdict(set)
    for old, new in names.items():
        by_new[new].add(old)
    for new, olds in sorted(by_new.items()):
        if len(olds) > 1:
            print("meets:", *sorted(olds), "->", new)
    for p in antt + rust:
        own = renamed(p)
        words = set(re.findall(WORD, COMMENT.sub("", texts[p]) if p.endswith(".antt") else re.sub(r"//.*", "", texts[p])))
        if p.endswith(".rt"):
            # A parameter, a local or a field hides a definition of its name.
            words = {w for w in words if is_odd(w)} | set(re.findall(r"\b(?:let (?:mut )?)?(\w+)(?:: | = )", texts[p]))
        for old in sorted(words & set(own)):
            if own[old] in words - set(spelled(p)):
                print(f"meets: {os.path.relpath(p, TOP)}: {old} -> {own[old]}")
    if check:
        print(len(names), "names")
        return
    for p in antt + rust:
        new = turned(texts[p], renamed(p), COMMENT if p.endswith(".antt") else re.compile(r"//.*"))
        if new != texts[p]:
            with open(p, "w", encoding="utf-8") as f:
                f.write(new)
    # Pages name what port.py renamed too.
    now = {it for p in antt for it in re.findall(WORD, read(p))}
    for p in [f"{TOP}/README.md", *sorted(glob.glob(f"{TOP}/docs/**/*.md", recursive=True))]:

        def page(m):
            name = m[0]
            new = names.get(name) or is_odd(name) and (it for it in [snake(name)] if it in now) and snake(name)
            return new if new and new in now and name not in now else name

        text = read(p)
        new = re.sub(r"(?<=\u0060)[A-Za-z][\w-]*(?=\u0060)", page, text)
        if new != text:
            with open(p, "w", encoding="utf-8") as f:
                f.write(new)


main()
