#!/usr/bin/env python3
"""Vectors for the crate expression, from document 01's "Parameter and expression records".

Writes crates/replay_expressions/stdin and stdout. Shares nothing with the port: lists are cut, not walked by a cursor;
keys are a dictionary that is sorted; the readers raise what they meet.
"""
import os
import random
import re

ROOT = os.path.join(os.path.dirname(os.path.abspath(__file__)), "..", "..", "crates", "replay_expressions")
DEPTH = 32
LARGEST = 2**64 - 1


class Fault(Exception):
    pass


class Span:
    def __init__(self, number, tag, start, end):
        self.number, self.tag, self.start, self.end = number, tag, start, end


# ---- literals (RFC 8259 and the limits): a reader that stops at the first byte at fault


class Json:
    def __init__(self, text):
        self.text, self.at, self.open = text, 0, 0

    def peek(self):
        return self.text[self.at] if self.at < len(self.text) else None

    def take(self, allowed):
        c = self.peek()
        if c is None or chr(c) not in allowed:
            raise Fault(" invalid")
        self.at += 1
        return chr(c)

    def blanks(self):
        while self.peek() is not None and chr(self.peek()) in " \t\n\r":
            self.at += 1

    def opened(self):
        self.open += 1
        if self.open > 32:
            raise Fault(" over")

    def digits(self, count, limit):
        while self.peek() is not None and chr(self.peek()) in "0123456789":
            self.at += 1
            count += 1
            if count > limit:
                raise Fault(" over")
        return count

    def number(self):
        if chr(self.peek()) == "-":
            self.at += 1
        if self.take("0123456789") == "0":
            count = 1
        else:
            count = self.digits(1, 15)
        if self.peek() is not None and chr(self.peek()) == ".":
            self.at += 1
            self.take("0123456789")
            if count + 1 > 15:
                raise Fault(" over")
            count = self.digits(count + 1, 15)
        if self.peek() is not None and chr(self.peek()) in "eE":
            self.at += 1
            if self.peek() is not None and chr(self.peek()) in "+-":
                self.at += 1
            self.take("0123456789")
            self.digits(1, 2)

    def hex4(self):
        return int("".join(self.take("0123456789abcdefABCDEF") for _ in range(4)), 16)

    def string(self):
        self.take('"')
        while True:
            c = self.peek()
            if c is None or c < 32:
                raise Fault(" invalid")
            self.at += 1
            if c == 0x22:
                return
            if c == 0x5C and self.take('"\\/bfnrtu') == "u":
                v = self.hex4()
                if 0xDC00 <= v <= 0xDFFF:
                    raise Fault(" invalid")
                if 0xD800 <= v <= 0xDBFF:
                    self.take("\\")
                    self.take("u")
                    if not 0xDC00 <= self.hex4() <= 0xDFFF:
                        raise Fault(" invalid")

    def value(self):
        self.blanks()
        c = chr(self.peek()) if self.peek() is not None else ""
        if c == '"':
            self.string()
        elif c and c in "-0123456789":
            self.number()
        elif c and c in "tfn":
            for x in {"t": "true", "f": "false", "n": "null"}[c]:
                self.take(x)
        elif c == "[":
            self.at += 1
            self.opened()
            self.blanks()
            if self.peek() != 0x5D:
                self.value()
                while self.take(",]") == ",":
                    self.value()
            else:
                self.at += 1
            self.open -= 1
        elif c == "{":
            self.at += 1
            self.opened()
            self.blanks()
            if self.peek() != 0x7D:
                while True:
                    self.blanks()
                    self.string()
                    self.blanks()
                    self.take(":")
                    self.value()
                    if self.take(",}") == "}":
                        break
            else:
                self.at += 1
            self.open -= 1
        else:
            raise Fault(" invalid")
        self.blanks()


def check(text):
    j = Json(text)
    j.value()
    if j.peek() is not None:
        raise Fault(" invalid")


def requoted(inner):
    return b'"' + inner.replace(b"\\'", b"'").replace(b'"', b'\\"') + b'"'


# ---- readers: each takes the list of walked spans and gives what it read and the list that is left


class Reader:
    def __init__(self, text, judged):
        self.text, self.judged = text, judged

    def own(self, start, end):
        return self.text[start:end] if start <= end else b""

    def next(self, spans):
        if not spans:
            raise Fault(" ended")
        return spans[0], spans[1:]

    def tilde(self, spans):
        s, rest = self.next(spans)
        return (True, rest) if s.tag == 34 else (False, spans)

    def path(self, s, rest):
        inside = []
        while rest and rest[0].end <= s.end:
            inside.append(rest[0])
            rest = rest[1:]
        kinds = ""
        for i in inside:
            name = self.own(i.start, i.end)
            if i.tag in (36, 37, 38):
                kinds += {36: "r", 37: "h", 38: "u"}[i.tag]
            elif i.tag in (39, 40) and name != b"this":
                kinds += "n"
        raw = self.own(s.start, s.end)
        m = re.match("hu*n", kinds)
        shown = b" local %d" % (m.end() - 2) if m else b" path"
        return (shown + b" <" + raw + b">", raw), rest

    def subexpression(self, spans, limit, depth):
        if depth == 0:
            raise Fault(" over")
        rest = self.expression(spans, limit, depth - 1)[1]
        return (b" sub %d %d" % (limit, depth - 1), None), rest

    def name(self, spans, depth):
        s, rest = self.next(spans)
        if s.tag in (21, 22, 23, 24, 25):
            n = self.own(s.start, s.end)
            return (b" name <" + n + b">", n), rest
        if s.tag == 26:
            return self.path(s, rest)
        if s.tag == 27:
            return self.subexpression(rest, s.end, depth)
        raise Fault(" not-allowed")

    def judge(self, text):
        if self.judged:
            check(text)

    def literal(self, s, rest):
        i, rest = self.next(rest)
        if i.tag == 30:
            q = self.next(rest)[0]
            if q.tag == 31:
                inner = self.own(q.start, q.end)
                self.judge(requoted(inner))
                return (b" literal 1 <" + inner + b">", None), rest[1:]
        own = self.own(s.start, s.end)
        self.judge(own)
        return (b" literal 0 <" + own + b">", None), rest

    def param(self, spans, depth):
        s, rest = self.next(spans)
        if s.tag == 28:
            s, rest = self.next(rest)
        if s.tag == 26:
            p, rest = self.path(s, rest)
        elif s.tag == 27:
            p, rest = self.subexpression(rest, s.end, depth)
        elif s.tag == 29:
            p, rest = self.literal(s, rest)
        else:
            raise Fault(" not-allowed")
        while rest and rest[0].end <= s.end:
            rest = rest[1:]
        return p, rest

    def hash(self, spans, depth):
        k, rest = self.next(spans)
        v, rest = self.param(rest, depth)
        return (self.own(k.start, k.end), v[0]), rest

    def block(self, spans, limit):
        a, rest = self.next(spans)
        names = [self.own(a.start, a.end)]
        if rest and rest[0].end <= limit:
            names.append(self.own(rest[0].start, rest[0].end))
            rest = rest[1:]
        return names, rest

    def parts(self, spans, limit, depth):
        """parameters, keys with their last values, block parameters, and whether there is a right tilde"""
        params, keys, block, right, rest = [], {}, [], False, spans
        while rest and rest[0].end < limit:
            s, rest = rest[0], rest[1:]
            if s.tag == 28:
                p, rest = self.param(rest, depth)
                params.append(p[0])
            elif s.tag == 32:
                (k, v), rest = self.hash(rest, depth)
                keys[k] = v
            elif s.tag == 33:
                block, rest = self.block(rest, s.end)
            elif s.tag == 35:
                right = True
        return (params, keys, block, right), rest

    def expression(self, spans, limit, depth):
        left, rest = self.tilde(spans)
        name, rest = self.name(rest, depth)
        (params, keys, block, right), rest = self.parts(rest, limit, depth)
        shown = b" %d" % left + name[0] + (b" nameless" if name[1] is None else quoted(name[1]))
        shown += b"".join(b" param" + p for p in params)
        shown += b"".join(b" key" + quoted(k) + keys[k] for k in sorted(keys))
        return shown + b" as" + shown_block(block) + b" %d" % right, rest


def quoted(name):
    return b" <" + name + b">"


def shown_block(names):
    return b"".join(map(quoted, names)) if names else b" none"


def then(rest):
    return b" then %d" % rest[0].number if rest else b" then end"


def answer(call, show):
    try:
        value, rest = call()
    except Fault as f:
        return f.args[0].encode()
    return show(value) + then(rest)


def lines(text, words):
    count = len(words) // 3
    spans = [Span(k, *words[3 * k : 3 * k + 3]) for k in range(count)]
    r, again = Reader(text, True), Reader(text, False)
    out = [b"count %d" % count]

    def behind(k):
        at = k + 1 if k < count else k
        return [s for s in spans[min(at, count) :] if s.tag != 4]

    def end(k):
        # words past the end are 0
        return (words[3 * k + 2] if 3 * k + 2 < len(words) else 0)

    def at(k, depth):
        rest, limit = behind(k), end(k)
        return (
            b"%d tilde" % k
            + answer(lambda: r.tilde(rest), lambda v: b" %d" % v)
            + b" | block"
            + answer(lambda: r.block(rest, limit), shown_block)
            + b" | name"
            + answer(lambda: r.name(rest, depth), lambda v: v[0])
            + b" | param"
            + answer(lambda: r.param(rest, depth), lambda v: v[0])
            + b" | hash"
            + answer(lambda: r.hash(rest, depth), lambda v: quoted(v[0]) + v[1])
            + b" | sub"
            + answer(lambda: r.subexpression(rest, limit, depth), lambda v: v[0])
            + b" | expression"
            + answer(lambda: r.expression(rest, limit, depth), lambda v: v)
        )

    for k in range(count + 1):
        out.append(at(k, k % 3))
        out.append(b"%d entered" % k + answer(lambda: again.expression(behind(k), end(k), DEPTH), lambda v: v))
    out.append(at(LARGEST, LARGEST))
    return out


# ---- records

BY_HAND = [
    ("", ""),
    ("{{#if a}}", "5 0 9 21 3 5 28 6 7 26 6 7 39 6 7"),
    # beyond the tag's end: name, parameter
    ("{{a}}", "11 0 2 21 2 4 0 5 5"),
    ("{{a}}", "11 0 4 21 2 3 28 3 3 26 3 5 0 5 5"),
    # what a parameter skips; how many tags 28
    ("abcde f", "11 0 5 21 0 1 28 1 3 26 1 2 35 2 3 2 6 7"),
    ("abcde", "11 0 5 21 0 1 28 1 2 28 1 2 26 1 2"),
    ("abcde", "11 0 5 21 0 1 28 1 2 28 1 2 28 1 2 26 1 2"),
    ("abcde", "11 0 5 21 0 1 32 1 2 21 1 2 28 1 2 28 1 2 26 1 2"),
    # a name that is a subexpression, and what it leaves
    ("abcdef", "11 0 6 27 1 4 21 1 2 28 2 4 26 2 4"),
    # any tag is a key, a block parameter
    ("abcdef", "11 0 6 21 0 1 32 1 4 28 1 2 26 3 4"),
    ("abcdef", "11 0 6 21 0 1 33 1 2 35 2 3"),
    ("abcdef", "11 0 6 21 0 1 33 1 4 21 1 2 21 3 4 33 4 5 21 4 5"),
    # repeated keys, keys out of order, one the front of the other
    ("n b a b ab c", "11 0 12 21 0 1 32 2 3 21 2 3 26 2 3 32 4 5 21 4 5 26 4 5 32 6 7 21 6 7 26 0 1 32 8 10 21 8 10 26 8 10 32 11 11 21 11 12 26 11 11 35 11 11"),
    ("n", "11 0 1 21 0 1 32 0 0 21 0 0 26 0 0 32 0 0 21 0 1 26 0 0"),
    # literals
    ('a"b"..', "11 0 6 21 0 1 28 1 4 29 1 4 30 1 4 0 6 6"),
    ('a"b"..', "11 0 6 21 0 1 28 1 4 29 1 4 30 1 4"),
    ("a'\\\\''..", "11 0 8 21 0 1 28 1 6 29 1 6 30 1 6 31 2 5"),
    ("a'it\\'s \"x\"'", "11 0 13 21 0 1 28 1 12 29 1 12 30 1 12 31 2 11 35 12 12"),
    ("a'\\\"'", "11 0 6 21 0 1 28 1 5 29 1 5 30 1 5 31 2 4"),
    ("a01..", "11 0 5 21 0 1 28 1 3 29 1 3 0 1 3"),
    ("a123456789012345,", "11 0 18 21 0 1 28 1 16 29 1 16 0 1 16"),
    ("a1234567890123456", "11 0 18 21 0 1 28 1 17 29 1 17 0 1 17"),
    ("a1e400", "11 0 9 21 0 1 28 1 6 29 1 6 0 1 6"),
    ('a"\\ud800"', "11 0 10 21 0 1 28 1 9 29 1 9 31 1 9"),
    ('a[1,{"k":[null]}] ', "11 0 18 34 0 0 21 0 1 28 1 17 29 1 18 0 1 17 35 17 17"),
    ("[" * 33 + "]" * 33, "11 0 99 21 0 1 28 0 1 29 0 66 0 0 1"),
    ("[" * 32 + "]" * 32, "11 0 99 21 0 1 28 0 1 29 0 64 0 0 1"),
    # tildes on both sides, escapes between
    ("{{~a~}}", "11 0 7 34 2 3 4 2 3 21 3 4 4 3 4 35 4 5 4 4 5"),
    # a path that is local, one with `this`
    ("@../index", "11 0 10 26 0 9 37 0 1 38 1 3 39 4 9"),
    ("@this.a b", "11 0 9 26 0 7 37 0 1 39 1 5 39 6 7 28 8 8 26 8 8 0 9 9"),
    # words not in threes
    ("abc", "11 0 3 21 0 1 28 1"),
    ("abc", "11 0 4294967295 21 4294967295 0 28 1 4294967295 26 0 4294967295"),
]


def nested(n):
    """n subexpressions inside one another, as names and as parameters"""
    words = [11, 0, 100]
    for i in range(n):
        words += [27, 0, 99] if i % 2 else [21, 0, 1, 28, 0, 1, 27, 0, 99]
    return "ab", words + [21, 0, 1]


NAMES = ["a", "b", "ab", "ba", "z", "this", "index", "B", ""]
LITERALS = ["1", "-0.5e+10", "true", "null", '"x"', '["a",{"b":1}]', "[]", "01", "tru", '"\\u00e9"', '"\\ud83d\\ude00"', '"\\ud800"', "1234567890123456"]
INNER = ["x", "it\\'s", 'a"b', "\\\\n", "\\x", ""]


class Made:
    """an expression as a parser would list it, written along with its text"""

    def __init__(self, rng):
        self.rng, self.text, self.spans = rng, "", []

    def piece(self, tag, piece):
        self.spans.append([tag, len(self.text), len(self.text) + len(piece)])
        self.text += piece

    def opening(self, tag):
        self.spans.append([tag, len(self.text), 0])
        return self.spans[-1]

    def closing(self, span):
        span[2] = len(self.text)
        self.text += " "

    def path(self):
        s = self.opening(26)
        if self.rng.random() < 0.4:
            self.piece(37, "@")
        for _ in range(self.rng.choice([0, 0, 1, 2])):
            self.piece(38, "../")
        for _ in range(self.rng.choice([1, 1, 2])):
            self.piece(self.rng.choice([39, 39, 40]), self.rng.choice(NAMES))
        self.closing(s)

    def value(self, depth):
        if self.rng.random() < 0.3:
            self.piece(28, "")
        kind = self.rng.choice(["path", "path", "literal", "quoted", "sub"])
        if kind == "path" or (kind == "sub" and depth == 0):
            self.path()
        elif kind == "sub":
            self.subexpression(depth - 1)
        elif kind == "literal":
            text = self.rng.choice(LITERALS)
            s = self.opening(29)
            self.piece(30 if text.startswith('"') and self.rng.random() < 0.5 else 0, text)
            self.closing(s)
        else:
            s = self.opening(29)
            t = self.opening(30)
            self.text += "'"
            self.piece(31, self.rng.choice(INNER))
            self.text += "'"
            t[2] = len(self.text)
            self.closing(s)

    def subexpression(self, depth):
        s = self.opening(27)
        self.text += "("
        self.expression(depth)
        self.text += ")"
        self.closing(s)

    def expression(self, depth):
        if self.rng.random() < 0.3:
            self.piece(34, "~")
        if self.rng.random() < 0.6:
            self.piece(self.rng.choice([21, 22, 23, 24, 25]), self.rng.choice(NAMES))
            self.text += " "
        elif self.rng.random() < 0.6 or depth == 0:
            self.path()
        else:
            self.subexpression(depth - 1)
        for _ in range(self.rng.randrange(5)):
            part = self.rng.choice([28, 28, 32, 32, 32, 33, 35, 0])
            if part == 28:
                s = self.opening(28)
                self.value(depth)
                s[2] = len(self.text) - 1
            elif part == 32:
                s = self.opening(32)
                self.piece(21, self.rng.choice(NAMES))
                self.text += "="
                self.value(depth)
                s[2] = len(self.text) - 1
            elif part == 33:
                s = self.opening(33)
                for _ in range(self.rng.choice([1, 2])):
                    self.piece(21, self.rng.choice(NAMES))
                self.closing(s)
            else:
                self.piece(part, "~")


def made(rng, damaged):
    m = Made(rng)
    tag = m.opening(11)
    m.expression(2)
    m.closing(tag)
    spans = m.spans
    for _ in range(rng.randrange(1, 3) if damaged else 0):
        k = rng.randrange(1, len(spans)) if len(spans) > 1 else 0
        what = rng.randrange(5)
        if what == 0:
            del spans[k]
        elif what == 1:
            spans.insert(k, list(spans[k]))
        elif what == 2:
            spans.insert(k, [4, 0, 1])
        elif what == 3:
            spans[k][0] = rng.choice([0, 21, 26, 27, 28, 29, 30, 31, 32, 33, 34, 35, 39])
        else:
            spans[k][2] += rng.choice([-2, -1, 1, 2]) if spans[k][2] > 1 else 1
        if not spans:
            break
    return m.text, [w for s in spans for w in s]


def drawn(rng):
    """any spans"""
    text = "".join(rng.choice("ab\"'\\ 12[]~") for _ in range(rng.randrange(14)))
    words = [11, 0, len(text) + 1]
    for _ in range(rng.randrange(1, 10)):
        start = rng.randrange(len(text) + 2)
        words += [rng.choice([21, 26, 27, 28, 28, 29, 30, 31, 32, 33, 34, 35, 39, 4, 0, 41]), start, start + rng.randrange(-1, 5) if start else 0]
    return text, words


def all_records():
    rng = random.Random(4)
    records = [(t, [int(w) for w in ws.split()]) for t, ws in BY_HAND]
    records += [nested(n) for n in (1, 2, 3, 31, 32, 33)]
    return records + [made(rng, False) for _ in range(40)] + [made(rng, True) for _ in range(40)] + [drawn(rng) for _ in range(30)]


def stored(records):
    stdin = b"".join(text.encode() + b"\n" + b" ".join(b"%d" % w for w in words) + b"\n" for text, words in records)
    assert len(stdin) <= 65536
    return stdin


def main():
    records = all_records()
    stdout = [line for text, words in records for line in lines(text.encode(), words)]
    with open(os.path.join(ROOT, "stdin"), "wb") as f:
        f.write(stored(records))
    with open(os.path.join(ROOT, "stdout"), "wb") as f:
        f.write(b"\n".join(stdout) + b"\n")
    print(len(records), "records,", len(stored(records)), "bytes in,", sum(len(x) + 1 for x in stdout), "out")


if __name__ == "__main__":
    main()
