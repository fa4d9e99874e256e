#!/usr/bin/env python3
"""Runs the cards that docs/DECISIONS.md and docs/DIFFERENCES.md write out.

    documents.py --oracle COMMAND --port COMMAND

Each card's stated answer has to be the port's; where `crate:` says a panic, an error or a listing, that has to be
the crate's, and where it says something else, the crate has to accept. Prints what is not so.
"""
import argparse
import ast
import os
import re
import shlex
import sys

import cards
from compare import run

DOCS = os.path.join(os.path.dirname(os.path.abspath(__file__)), "..", "..", "docs")
CARD = re.compile(
    r"card: options (\d+); (?:spans `([^`]*)`|no spans); text `(.*?)`; answer `([^`]*)`(?:; crate: ((?:`[^`]*`|[^`])*?))?(?= - | \*\*| #| \||$)"
)


def written(name):
    """The cards of a page: options, words, text, answer, what is said of the crate."""
    with open(os.path.join(DOCS, name), encoding="utf-8") as f:
        page = f.read()
    # a paragraph or an item a line
    lines = re.sub(r"\n(?=[^\n])(?! *- )", " ", page).split("\n")
    for line in lines:
        for m in CARD.finditer(re.sub(r"\s+", " ", line)):
            words = [int(w) for s in (m[2] or "").split(",") for w in s.split()]
            text = eval_text(m[3])
            yield (int(m[1]), words, text), m[4], m[5] or ""


def eval_text(s):
    """A literal, or one put together with + and *."""
    tree = ast.parse(s, mode="eval")
    allowed = (ast.Expression, ast.BinOp, ast.Add, ast.Mult, ast.Constant)
    if not all(isinstance(n, allowed) for n in ast.walk(tree)):
        sys.exit("no text: " + s)
    return eval(compile(tree, "text", "eval")).encode()


def lines(listing):
    return listing.rstrip("\n").replace("\n", " / ")


def agrees(said, got):
    """Whether the crate's answer is what is said of it, as far as that can be told by a program."""
    if said.startswith("panic"):
        return got.startswith("panic")
    error = re.match(r"`(InvalidParam|MismatchingClosed\w+)`", said)
    if error:
        return got.startswith("error %s " % error[1])
    if said.startswith("`[template"):
        return said[1:].startswith(lines(got) + "`")
    return got.startswith("[template") if said else True


def main():
    a = argparse.ArgumentParser(description=__doc__.split("\n")[0])
    a.add_argument("--oracle", required=True)
    a.add_argument("--port", required=True)
    args = a.parse_args()
    wrong = 0
    for page in ("DECISIONS.md", "DIFFERENCES.md"):
        found = list(written(page))
        data = b"".join(cards.record(*c) for c, _, _ in found)
        port = run(shlex.split(args.port), data, len(found))
        crate = run(shlex.split(args.oracle) + ["cards"], data, len(found))
        for (card, answer, said), p, c in zip(found, port, crate):
            p, c = lines(p.decode()), c.decode()
            if p != answer or not agrees(said, c):
                wrong += 1
                print("%s: %r\n  written: %s; %s\n  port:    %s\n  crate:   %s" % (page, card, answer, said, p, lines(c)))
        print("%s: %d cards" % (page, len(found)))
    print("%d not as written" % wrong)
    sys.exit(1 if wrong else 0)


if __name__ == "__main__":
    main()
