#!/usr/bin/env python3
"""Counts the places of docs/DESIGN-PASS.md in crates/*/src: python3 tools/design/places.py [-v] [ROOT].

With -v each place is printed with its file and line. It goes by text, so what it prints is to be read: the page says of
each row what is a place and what is not.
"""
import pathlib
import re
import sys
from collections import defaultdict

ABSENT = {"None", "End", "Ended", "Failed", "Refused", "Other", "Invalid", "Over", "OverLimit", "TooMany", "Nothing"}


def strip(line):
    return re.sub(r'b?"(\\.|[^"\\])*"', '""', line).split("//")[0]


class Source:
    def __init__(self, path, root):
        self.name = str(path.relative_to(root / "crates")).replace("/src/", "/").removesuffix(".rt")
        self.lines = [strip(l) for l in path.read_text().splitlines()]

    def blocks(self, head):
        """Each item whose first line matches, as its number and its lines up to the brace that closes it."""
        for i, line in enumerate(self.lines):
            if not re.match(head, line):
                continue
            indent = re.match(r"\s*", line).group()
            for j in range(i, len(self.lines)):
                if j > i and self.lines[j] == indent + "}" or j == i and line.rstrip().endswith("}"):
                    yield i + 1, self.lines[i : j + 1]
                    break


def enums(src):
    for n, block in src.blocks(r"\s*(pub(\(crate\))? )?enum "):
        variants = [l.strip().rstrip(",") for l in block[1:-1] if l.strip()]
        names = {re.match(r"\w+", v).group() for v in variants}
        payload = sum("(" in v for v in variants)
        unit = len(variants) - payload
        if names & ABSENT or (payload and unit and len(variants) <= 3) or names == {"Good", "Refused"}:
            yield n, re.search(r"enum (\w+)", block[0]).group(1)


def functions(src):
    yield from src.blocks(r"\s*(pub(\(crate\))? )?(extern \"\" )?fn ")


def fn_name(block):
    return re.search(r"fn (\w+)", block[0]).group(1)


def head_and_body(block):
    for i, line in enumerate(block):
        if line.strip() == "{":
            return [l.strip() for l in block[:i]], block[i + 1 : -1]
        if line.rstrip().endswith("{") and not re.match(r"\s*(requires|ensures) ", line):
            return [l.strip() for l in block[: i + 1]], block[i + 1 : -1]
    return block[:1], block[1:-1]


def flags(src):
    for n, block in src.blocks(r"\s*(pub(\(crate\))? )?struct "):
        for i, l in enumerate(block):
            m = re.match(r"\s*(pub )?(\w+): bool,", l)
            if m:
                yield n + i, block[0].split("struct ")[1].split()[0].rstrip("{") + "." + m.group(2)


def numbers(src):
    for n, block in functions(src):
        head, body = head_and_body(block)
        text = " ".join(head)
        for word in ("tag", "call", "which", "kind", "number", "options"):
            if re.search(r"\b%s: u(8|32|64)\b" % word, text):
                yield n, fn_name(block) + ": " + word
        if re.search(r"-> (usize|u32|u8)\b", text) and any(re.match(r"\s*(return )?0;?$|.*=> 0,|.*\{ 0 \}", l) for l in body):
            yield n, fn_name(block) + ": 0 for none"


def skeleton(body):
    text = " ".join(l.strip() for l in body)
    words = {}
    return re.sub(r"\b(?!(?:if|else|while|loop|let|mut|return|match|for|in|as)\b)\w+\b", lambda m: words.setdefault(m.group(), "w%d" % len(words)), text)


def twins(sources):
    groups = defaultdict(list)
    for src in sources:
        for n, block in functions(src):
            head, body = head_and_body(block)
            if sum(bool(l.strip()) for l in body) >= 4:
                groups[skeleton(body)].append((src.name, n, fn_name(block)))
    for g in groups.values():
        if len(g) > 1:
            yield g


def loops(src):
    for i, l in enumerate(src.lines):
        if re.match(r"\s*while (?!let )", l) or re.match(r"\s*loop \{", l):
            yield i + 1, l.strip()


def copies(src):
    for n, block in functions(src):
        count = defaultdict(int)
        for l in block:
            m = re.match(r"\s*(\w+): (\w+)\.\1,", l)
            if m:
                count[m.group(2)] += 1
        for v, k in count.items():
            if k >= 2:
                yield n, "%s: %d fields of %s" % (fn_name(block), k, v)


def by_hand(src):
    for n, block in functions(src):
        name = fn_name(block)
        if re.match(r"(same_|precedes|wide$|told_of|copy_|letter$|is_digit|is_hex|fault_number|least$|shorter$|less$|differs$|onward$|one_more$|more$)", name):
            yield n, name
    yield from copies(src)


def clauses(sources):
    count = defaultdict(list)
    for src in sources:
        for n, block in functions(src):
            for l in head_and_body(block)[0]:
                m = re.match(r"\s*requires (\w+ )?\{ (.*) \}", l)
                if m:
                    for part in m.group(2).split(" × "):
                        count[src.name.split("/")[0] + ": " + part.strip("()")].append((src.name, n, fn_name(block)))
    return {k: v for k, v in count.items() if len(v) >= 3}


def together(sources):
    count = defaultdict(list)
    for src in sources:
        for n, block in functions(src):
            text = " ".join(head_and_body(block)[0])
            for a, b in (("text", "words"), ("out", "at"), ("starts", "ends"), ("start", "end"), ("words", "options"), ("held", "count"), ("buf", "n")):
                if re.search(r"\b%s: [^,]*, (\w+: [^,]*, )*%s: " % (a, b), text):
                    count[a + ", " + b].append((src.name, n, fn_name(block)))
    return count


def buffers(src):
    for i, l in enumerate(src.lines):
        if re.search(r"\[[^\[\]]*; [^\[\]]+\]", l):
            yield i + 1, l.strip()


def switches(src):
    for n, block in functions(src):
        for i, l in enumerate(block):
            if re.search(r"match (call|which|kind|rule|mode|p|what)\b", l):
                yield n + i, fn_name(block) + ": " + l.strip()
            if re.search(r"if (back|white|quoted|judged|object|k) \{", l):
                yield n + i, fn_name(block) + ": " + l.strip()


def main():
    args = [a for a in sys.argv[1:] if a != "-v"]
    verbose = "-v" in sys.argv
    root = pathlib.Path(args[0] if args else ".").resolve()
    sources = [Source(p, root) for p in sorted(root.glob("crates/*/src/*.rt"))]

    def row(title, places):
        crates = defaultdict(int)
        for name, n, what in places:
            crates[name.split("/")[0]] += 1
        print("%-58s %4d   %s" % (title, len(places), ", ".join("%s %d" % kv for kv in sorted(crates.items()))))
        if verbose:
            for name, n, what in places:
                print("    %s:%d %s" % (name, n, what))

    each = lambda f: [(s.name, n, what) for s in sources for n, what in f(s)]
    row("1 enums of the shape of Option or Result", each(enums))
    row("1 fields that are flags", each(flags))
    row("1 numbers for kinds and refusals, 0 for none", each(numbers))
    groups = list(twins(sources))
    row("2 functions of one shape (%d groups)" % len(groups), [(a, n, "%s (group %d)" % (f, i)) for i, g in enumerate(groups) for a, n, f in g])
    row("3 loops that are no `for`", each(loops))
    row("4 equality, order, copying, conversion by hand", each(by_hand))
    c = clauses(sources)
    row("5 clauses of three or more functions (%d clauses)" % len(c), [(a, n, "%s: %s" % (f, k)) for k, v in sorted(c.items()) for a, n, f in v])
    t = together(sources)
    row("5 parameters that travel together (%d pairs)" % len(t), [(a, n, "%s: %s" % (f, k)) for k, v in sorted(t.items()) for a, n, f in v])
    row("6 arrays", each(buffers))
    row("7 switches on the step to run", each(switches))
    answers = 0
    files = sorted(root.glob("crates/*/proofs/**/Answers.antt"))
    for p in files:
        answers += len(re.findall(r"(?m)^pub ", p.read_text()))
    print("%-58s %4d   in %d files" % ("8 answers", answers, len(files)))


main()
