#!/usr/bin/env python3
"""Brings the repository's own definitions and lemmas to today's spelling: a fact (what answers a Type)
in upper camel case, every other word in snake case. It was run once, after the toolchain's own script.

    tools/respell/respell.py names     writes names.tsv from the declarations of specs/ and proofs/*.antt; not run again
    tools/respell/respell.py           turns the names of names.tsv in crates/: .antt, .rt and .edit files

A name that a file imports from the toolchain's library stays in that file. It goes by whole words; the
names of src/, of exported functions, strings, inputs and outputs have other spellings, so that none turns.
"""
import collections
import pathlib
import re
import sys

ROOT = pathlib.Path(__file__).resolve().parents[2]
TABLE = pathlib.Path(__file__).resolve().parent / "names.tsv"
# Lemmas to which the toolchain's script gave the name of a definition; they turn in the proof files named here.
FIRST = {
    "crates/card/proofs/Grammar.antt": ["one_more"],
    "crates/listing/proofs/Head.antt": ["read_word"],
    "crates/listing/proofs/Lex.antt": ["is_digit"],
    "crates/support/proofs/Places.antt": ["one_more"],
    "crates/template/proofs/Lister.antt": ["body_bytes"],
}
WORD = re.compile(r'[^\s(){}.;,@"«»:]+')
DECLARED = re.compile(
    r"^\s*(?:(?:abbrev|unfoldable|opaque) +)?(?:pub +)?(?:(?:record|data|ruleset) +)?"
    + "(" + WORD.pattern + r")(?: +\{[^}\n]*\})*(?: +\([^)\n]*\))* *: +(.*)$",
    re.M,
)
USE = re.compile(r"^(?:pub )?use ([^{}\s]+)\.\{([^}]*)\}", re.M | re.S)


def crates():
    return {p.name for p in (ROOT / "crates").iterdir() if p.is_dir()}


def declaring():
    for crate in sorted((ROOT / "crates").iterdir()):
        yield from sorted((crate / "specs").rglob("*.antt"))
        yield from sorted((crate / "proofs").glob("*.antt"))


def snake(name):
    name = re.sub(r"(?<=[a-z0-9])([A-Z])(?=[a-z])", lambda m: "_" + m[1].lower(), name)
    name = re.sub(r"(?<=[a-z0-9])([A-Z])(?![a-z])", lambda m: "_" + m[1].lower(), name)
    return name.replace("-", "_")


def camel(name):
    return name[0].upper() + name[1:]


def new_name(name, types):
    if any(t.rstrip(" where").endswith(("Type 0", "Type 1")) for t in types) and re.match("[a-z]", name):
        return camel(name)
    if "-" in name or (re.match("[a-z]", name) and re.search("[A-Z]", name)):
        return snake(name)
    return name


def write_names():
    types = collections.defaultdict(list)
    for path in declaring():
        for m in DECLARED.finditer(path.read_text()):
            types[m[1]].append(m[2].strip())
    rows = [(n, new_name(n, t)) for n, t in sorted(types.items())]
    taken = {b for a, b in rows if a == b}
    # A definition keeps the plain name, and a lemma that would have it gets `_lem`.
    for k, (a, b) in sorted(enumerate(rows), key=lambda row: "-" in row[1][0]):
        if a != b and b in taken:
            rows[k] = (a, b + "_lem")
        taken.add(rows[k][1])
    TABLE.write_text("".join(f"{a}\t{b}\n" for a, b in rows if a != b))


def foreign(text):
    """The names that a file imports from elsewhere than this repository."""
    own, found = crates(), set()
    for m in USE.finditer(text):
        parts = m[1].split(".")
        if parts[0] == "Rattle" and len(parts) > 1 and parts[1] in own and ".declared." not in m[1]:
            continue
        for item in m[2].split(","):
            words = item.split(" as ")
            found.add(words[-1].strip())
            found.add(words[0].strip())
    return found


def turn(text, table):
    kept = foreign(text)
    return WORD.sub(lambda m: m[0] if m[0] in kept else table.get(m[0], m[0]), text)


def main():
    for name, words in FIRST.items():
        path = ROOT / name
        path.write_text(WORD.sub(lambda m: m[0] + "_lem" if m[0] in words else m[0], path.read_text()))
    if sys.argv[1:] == ["names"]:
        return write_names()
    table = dict(line.split("\t") for line in TABLE.read_text().splitlines())
    for path in sorted((ROOT / "crates").rglob("*")):
        if path.suffix in (".antt", ".rt", ".edit") and "out" not in path.relative_to(ROOT).parts[:3]:
            old = path.read_text()
            new = turn(old, table)
            if new != old:
                path.write_text(new)


main()
