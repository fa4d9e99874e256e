#!/usr/bin/env python3
"""Compares the crate with the port on random cards.

    compare.py --oracle COMMAND --port COMMAND --kind KIND --count N [--seed N] [--batch N] [--keep FOLDER]

Both commands read records and write answers (README.md); KIND is a kind of cards.py. Trees are compared by
listing, literals by value; errors by number and by the span that the walk is at. What differs is put in a
class of docs/DIFFERENCES.md, by the functions of classes.py; what no class explains is kept in FOLDER as
a card with both answers. The exit status is 1 if there is any.
"""
import argparse
import collections
import os
import random
import re
import shlex
import struct
import subprocess
import sys
import time

import cards
import classes
from steps import Span

ERRORS = {"InvalidParam": 9, "MismatchingClosedHelper": 10, "MismatchingClosedDecorator": 11}
REFUSED = re.compile(rb"refused (\d+) at (\d+)\n")
STOPPED = re.compile(rb"(panic|error) (\S+) (?:(\S+) )?at (\d+) (\d+) (\d+) (\d+)\n")


def framed(chunks):
    return b"".join(struct.pack("<I", len(c)) + c for c in chunks)


def run(command, data, count):
    """The answers of a command, which have to be as many as were asked for."""
    out = subprocess.run(command, input=data, stdout=subprocess.PIPE, check=True).stdout
    answers, at = [], 0
    while at < len(out):
        n = struct.unpack_from("<I", out, at)[0]
        answers.append(out[at + 4 : at + 4 + n])
        at += 4 + n
    if len(answers) != count:
        sys.exit("%s gave %d answers to %d records" % (command[0], len(answers), count))
    return answers


class Difference:
    """A card, the crate's answer and the port's refusal."""

    def __init__(self, card, crate, port):
        self.options, self.words, self.text = card
        self.spans = [Span(i // 3, *card[1][i : i + 3]) for i in range(0, len(card[1]) - 2, 3)]
        self.crate, self.port = crate, port
        m = REFUSED.fullmatch(port)
        self.number, self.place = (int(m[1]), int(m[2])) if m else (0, 0)
        m = STOPPED.fullmatch(crate)
        self.stopped = m[1].decode() if m else None
        self.error = ERRORS[m[2].decode()] if m and m[1] == b"error" else None
        self.error_place = m[3] if m and m[1] == b"error" else None
        self.turn = int(m[4]) if m else None
        self.pair = tuple(int(x) for x in m.groups()[4:]) if m else None

    def line_column(self, offset):
        before = self.text[:offset]
        line = before[before.rfind(b"\n") + 1 :]
        return b"%d:%d" % (1 + before.count(b"\n"), 1 + len(line.decode()))


class Comparison:
    def __init__(self, args):
        self.args = args
        self.oracle, self.port = shlex.split(args.oracle), shlex.split(args.port)
        self.counts = collections.Counter()
        self.unknown = 0

    def by_value(self, listings):
        return run(self.oracle + ["values"], framed(listings), len(listings)) if listings else []

    def batch(self, number):
        rng = random.Random("%s %d %d" % (self.args.kind, self.args.seed, number))
        count = min(self.args.batch, self.args.count - number * self.args.batch)
        todo = [cards.KINDS[self.args.kind](rng) for _ in range(count)]
        data = b"".join(cards.record(*c) for c in todo)
        crate = run(self.oracle + ["cards"], data, count)
        port = run(self.port, data, count)
        trees = []
        for i, (card, c, p) in enumerate(zip(todo, crate, port)):
            if c.startswith(b"[template\n") and p.startswith(b"[template\n"):
                trees.append((number * self.args.batch + i, card, c, p))
            else:
                self.differing(number * self.args.batch + i, Difference(card, c, p))
        self.trees(trees)

    def trees(self, trees):
        other = [t for t in trees if t[2] != t[3]]
        self.counts["same: tree"] += len(trees) - len(other)
        values = self.by_value([t[3] for t in other])
        left = [t for t, v in zip(other, values) if t[2] != v]
        self.counts["same: tree, literals by value"] += len(other) - len(left)
        # both accept: only what is not a direct child of a text may differ
        plain = [classes.without_inner_escapes(t[1]) for t in left]
        again = run(self.port, b"".join(cards.record(*c) for c in plain), len(plain)) if plain else []
        for t, card, v in zip(left, plain, self.by_value(again)):
            if v == t[2] and card != t[1]:
                self.counts[classes.D34] += 1
            else:
                self.keep(t[0], Difference(*t[1:]))

    def differing(self, index, d):
        if d.crate == b"unnested\n":
            self.counts["not compared: no pairs"] += 1
        elif classes.same_error(d):
            self.counts["same: %d" % d.number] += 1
        else:
            name = classes.class_of(d)
            if name is None:
                self.keep(index, d)
            else:
                self.counts[name] += 1

    def keep(self, index, d):
        self.unknown += 1
        if not self.args.keep:
            return
        os.makedirs(self.args.keep, exist_ok=True)
        path = os.path.join(self.args.keep, "%s-%d-%d" % (self.args.kind, self.args.seed, index))
        lines = ["%d" % d.options] + [" ".join(map(str, d.words[i : i + 3])) for i in range(0, len(d.words), 3)]
        for end, content in ((".card", "\n".join(lines).encode() + b"\n\n" + d.text), (".crate", d.crate), (".port", d.port)):
            with open(path + end, "wb") as f:
                f.write(content)


def main():
    a = argparse.ArgumentParser(description=__doc__.split("\n")[0])
    a.add_argument("--oracle", required=True, help="command of the crate's side")
    a.add_argument("--port", required=True, help="command of the port's side")
    a.add_argument("--kind", choices=cards.KINDS, required=True)
    a.add_argument("--count", type=int, required=True)
    a.add_argument("--seed", type=int, default=1)
    a.add_argument("--batch", type=int, default=5000)
    a.add_argument("--keep")
    args = a.parse_args()
    sys.setrecursionlimit(20000)
    c, start = Comparison(args), time.time()
    for number in range(-(-args.count // args.batch)):
        c.batch(number)
    print("%d %s cards, seed %d, %.0f s" % (args.count, args.kind, args.seed, time.time() - start))
    for name, n in sorted(c.counts.items()):
        print("%9d  %s" % (n, name))
    print("%9d  unknown" % c.unknown)
    sys.exit(1 if c.unknown else 0)


if __name__ == "__main__":
    main()
