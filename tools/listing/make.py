#!/usr/bin/env python3
"""Vectors for the writers of the crate listing, from document 01's "Listing".

Writes crates/replay_listing/stdin and stdout. The reader is the one of tools/expressions, which gives forms here in place of its own
marks; nothing of it is the port's.
"""
import importlib.util
import os
import random
import re

HERE = os.path.dirname(os.path.abspath(__file__))
ROOT = os.path.join(HERE, "..", "..", "crates", "replay_listing")
spec = importlib.util.spec_from_file_location("expressions", os.path.join(HERE, "..", "expressions", "make.py"))
expressions = importlib.util.module_from_spec(spec)
spec.loader.exec_module(expressions)
ESCAPES = {0x5C: b"\\\\", 0x22: b'\\"', 0x0A: b"\\n"}


def quoted(text):
    return b'"' + b"".join(ESCAPES.get(b, bytes([b])) for b in text) + b'"'


class Lister(expressions.Reader):
    def path(self, s, rest):
        segments, kinds = b"", ""
        after = rest
        while after and after[0].end <= s.end:
            i, after = after[0], after[1:]
            name = self.own(i.start, i.end)
            if i.tag in (36, 37, 38):
                segments += {36: b"[root]\n", 37: b"[here]\n", 38: b"[up]\n"}[i.tag]
                kinds += {36: "r", 37: "h", 38: "u"}[i.tag]
            elif i.tag in (39, 40) and name != b"this":
                segments += b"[seg " + quoted(name) + b"]\n"
                kinds += "n"
        raw = self.own(s.start, s.end)
        m = re.match("hu*n", kinds)
        if m:
            name = [l for l in segments.split(b"\n") if l.startswith(b"[seg ")][0][5:-1]
            return (b"[local %d " % (m.end() - 2) + name + b" " + quoted(raw) + b"]\n", raw), after
        return (b"[path " + quoted(raw) + b"\n" + segments + b"]\n", raw), after

    def subexpression(self, spans, limit, depth):
        if depth == 0:
            raise expressions.Fault(" over")
        children, rest = self.children(spans, limit, depth - 1)
        return (b"[sub\n" + children[0] + b"]\n", None), rest

    def name(self, spans, depth):
        s, rest = self.next(spans)
        if s.tag in (21, 22, 23, 24, 25):
            return (b"[name " + quoted(self.own(s.start, s.end)) + b"]\n", None), rest
        return super().name(spans, depth)

    def literal(self, s, rest):
        i, rest = self.next(rest)
        kept = self.own(s.start, s.end)
        if i.tag == 30:
            q = self.next(rest)[0]
            if q.tag == 31:
                kept, rest = expressions.requoted(self.own(q.start, q.end)), rest[1:]
        self.judge(kept)
        return (b"[lit " + quoted(kept) + b"]\n", None), rest

    def children(self, spans, limit, depth):
        """name, parameters, keys; and the block parameters"""
        _, rest = self.tilde(spans)
        name, rest = self.name(rest, depth)
        (params, keys, block, _), rest = self.parts(rest, limit, depth)
        call = name[0] + b"".join(params)
        call += b"".join(b"[key " + quoted(k) + b"\n" + keys[k] + b"]\n" for k in sorted(keys))
        names = b"[as " + b" ".join(map(quoted, block)) + b"]\n" if block else b""
        return (call, names), rest


def written(text, words):
    count = len(words) // 3
    spans = [expressions.Span(k, *words[3 * k : 3 * k + 3]) for k in range(count)]
    out = b"count %d\n" % count
    for s in [s for s in spans if 5 <= s.tag <= 18 or s.tag == 27]:
        behind = [x for x in spans[s.number + 1 :] if x.tag != 4]
        try:
            call, block = Lister(text, False).children(behind, s.end, expressions.DEPTH)[0]
        except expressions.Fault:
            call, block = b'[name ""]\n', b""
        out += b"%d decorator %d\n" % (s.number, len(call)) + call
        out += b"%d helper %d\n" % (s.number, len(call + block)) + call + block
    return out


def keys(count):
    """so many keys in an order drawn by a generator, each twice, with values that differ"""
    rng = random.Random(count)
    text = "".join("%03d" % k for k in range(count))
    words = [11, 0, len(text) + 1, 21, 0, 1]
    order = list(range(count)) * 2
    rng.shuffle(order)
    for k in order:
        words += [32, 3 * k, 3 * k + 3, 21, 3 * k, 3 * k + 3, 26, 3 * k, 3 * k + rng.randrange(4)]
    return text, words


def main():
    records = expressions.all_records() + [keys(n) for n in (1, 15, 16, 17, 40)]
    out = b"".join(quoted(bytes([b])) + b"\n" for b in range(256))
    out += quoted(bytes(range(256))) + b"\n"
    numbers = [n for p in range(20) for n in (10**p - 1, 10**p, 10**p + 1)] + [2**64 - 1]
    out += b"".join(b"%d\n" % n for n in numbers)
    out += b"".join(written(text.encode(), words) for text, words in records)
    with open(os.path.join(ROOT, "stdin"), "wb") as f:
        f.write(expressions.stored(records))
    with open(os.path.join(ROOT, "stdout"), "wb") as f:
        f.write(out)
    print(len(records), "records,", len(out), "bytes out")


if __name__ == "__main__":
    main()
