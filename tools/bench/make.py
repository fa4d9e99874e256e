#!/usr/bin/env python3
"""Cards to measure with.

    make.py FOLDER

Writes a record a file: realistic cards (small, middle, largest), texts of several kinds, cards that are refused, series
in which one thing doubles, and the slowest cards known.
"""
import os
import random
import sys
import textwrap

sys.path.append(os.path.join(os.path.dirname(os.path.abspath(__file__)), "..", "oracle"))
import cards  # noqa: E402

SPANS, TEXT, CARD = 4096, 16384, 65536


class Desk(cards.Writer):
    """Text and spans, as a parser would list them."""

    def __init__(self):
        super().__init__()
        self.bodies = []

    def text(self, s):
        """Text of a body: the parser passes over white space at its front."""
        rest = s.lstrip(" \n")
        self.put(s[: len(s) - len(rest)])
        self.body()
        if rest:
            self.leaf(2, rest)

    def body(self):
        """The body that waits begins here, before its first text or tag."""
        if self.bodies and self.bodies[-1] is None:
            self.bodies[-1] = self.open(1)

    def begin(self):
        self.bodies.append(None)

    def end(self):
        self.body()
        self.close(self.bodies.pop())

    def reference(self, path):
        ref = self.open(26)
        for i, part in enumerate(path.split("/")):
            self.put("/" if i else "")
            self.leaf(38 if part == ".." else 39, part)
        self.close(ref)

    def value(self, v):
        """A parameter: a number, a string in quotes, or a path."""
        p = self.open(28)
        if v[0] in "0123456789":
            lit = self.open(29)
            self.leaf(0, v)
            self.close(lit)
        elif v[0] == '"':
            lit, string = self.open(29), self.open(30)
            self.put('"')
            self.leaf(0, v[1:-1])
            self.put('"')
            self.close(string)
            self.close(lit)
        else:
            self.reference(v)
        self.close(p)

    def tag(self, tag, start, name, *parts, end="}}", name_tag=21):
        """A tag with its parts: values, `k=value`, `as a b`."""
        x = self.open(tag)
        self.put(start)
        self.reference(name) if name_tag == 26 else self.leaf(name_tag, name)
        for part in parts:
            self.put(" ")
            if part.startswith("as "):
                b = self.open(33)
                self.put("as |")
                for i, n in enumerate(part[3:].split()):
                    self.put(" " if i else "")
                    self.leaf(21, n)
                self.put("|")
                self.close(b)
            elif "=" in part and part[0] != '"':
                k, v = part.split("=", 1)
                h = self.open(32)
                self.leaf(21, k)
                self.put("=")
                self.value(v)
                self.close(h)
            else:
                self.value(part)
        self.put(end)
        self.close(x)

    def element(self, *args, **more):
        self.body()
        self.tag(*args, **more)

    def block(self, name, *parts):
        self.element(5, "{{#", name, *parts)
        self.begin()

    def else_if(self, name, *parts):
        self.end()
        c = self.open(10)
        self.put("{{")
        self.leaf(25, "else")
        self.put(" ")
        self.leaf(21, name)
        for part in parts:
            self.put(" ")
            self.value(part)
        self.put("}}")
        self.close(c)
        self.begin()

    def plain_else(self):
        self.end()
        self.tag(9, "{{", "else", name_tag=25)
        self.begin()

    def end_block(self, name):
        self.end()
        self.tag(15, "{{/", name)

    def card(self):
        self.end()
        self.s.append([0, len(self.t), len(self.t)])
        return 0, [w for s in self.s for w in s], bytes(self.t)


# ---- realistic cards


def pick(d, k):
    """The lifts of one pick, with a branch for each selvedge."""
    d.block("if", "pick/left%d" % k)
    d.text("\n  L ")
    d.element(11, "{{", "pick/lift", name_tag=26)
    d.text(" ")
    d.element(11, "{{", "weft", '"red"', "turns=%d" % (k % 9 + 1))
    d.text("\n")
    d.else_if("plain", "pick/right%d" % k)
    d.text("\n  P ")
    d.element(12, "{{{", "lookup", "../lifts", "i", end="}}}")
    d.text("\n")
    d.plain_else()
    d.text("\n  ")
    d.element(14, "{{> ", "blank", "width=12", name_tag=22)
    d.text("\n")
    d.end_block("if")
    d.text("\n")


def ribbon(picks, end="each"):
    """A ribbon; `end` is the name in the end tag of its last block."""
    d = Desk()
    d.begin()
    d.body()
    d.leaf(20, "{{!-- ribbon, %d picks --}}" % picks)
    d.text("\nname ")
    d.element(11, "{{", "name", name_tag=26)
    d.text("\n")
    d.block("each", "rows", "as pick i")
    d.text("\n")
    for k in range(picks):
        pick(d, k)
    d.end_block(end)
    d.text("\n")
    return d.card()


def fits(card):
    options, words, text = card
    lines = sum(len("%d %d %d\n" % tuple(words[i : i + 3])) for i in range(0, len(words), 3))
    return len(words) <= 3 * SPANS and len(text) <= TEXT and 3 + lines + len(text) <= CARD


def most_picks():
    picks = 1
    while fits(ribbon(picks + 1)):
        picks += 1
    return picks


# ---- texts of several kinds

CHINESE = "织机上的每一根纬线都从经线之间穿过，一梭接着一梭，带子上的花纹就慢慢显出来了。红线在上，蓝线在下，两边的织边要一样紧。"
CYRILLIC = (
    "Каждая уточная нить проходит между нитями основы, и на ленте понемногу появляется узор. "
    "Красная нить лежит сверху, синяя снизу, а обе кромки должны быть натянуты одинаково. "
)
GERMAN = (
    "Jeder Schuss läuft zwischen den Kettfäden hindurch, und auf dem Band wird nach und nach das Muster sichtbar. "
    "Für die rechte Kante wählt man die größere Spule, für die linke genügt die kleine. "
)
EMOJI = "🧵🪡🧶🎀🔴🔵🟢🟡🧵🎀👗👔🧣🧤🔴🔴🔵🔵🟡🎁✂️📐📏"
QUOTED = 'pick "a1" is "red", pick "a2" is "blue", and "left" or "right" stands for the "selvedge"; '


def filled(s):
    """As much of a text's repetitions as there may be, cut at a character."""
    b = s.encode()
    return (b * (TEXT // len(b) + 1))[:TEXT].decode(errors="ignore").encode()


def words_in_lines(s):
    """Repeated, in lines of up to 63 characters, broken between words."""
    return filled("\n".join(textwrap.wrap(s * 20, 63)) + "\n")


def signs_in_lines(s):
    """Repeated, in lines of 63 characters: there is nothing between words."""
    run = s * 63
    return filled("".join(run[i : i + 63] + "\n" for i in range(0, len(run), 63)))


def whole(b):
    """One text."""
    return 0, [1, 0, len(b), 2, 0, len(b), 0, len(b), len(b)], b


def texts():
    yield "text-chinese", whole(signs_in_lines(CHINESE))
    yield "text-cyrillic", whole(words_in_lines(CYRILLIC))
    yield "text-emoji", whole(signs_in_lines(EMOJI))
    yield "text-german", whole(words_in_lines(GERMAN))
    yield "text-blanks", whole(filled("        over    under   over\n            under\n    \n                over  under\n"))
    yield "text-lines", whole(filled("\n"))
    yield "text-crlf", whole(filled("weave\r\n"))
    yield "text-quotes", whole(words_in_lines(QUOTED))


# ---- series: one thing doubles


def text(n):
    """One text of n bytes in lines of 64."""
    return whole(("x" * 63 + "\n").encode() * (n // 64))


def expressions(n, between=""):
    d = Desk()
    d.begin()
    for _ in range(n):
        d.element(11, "{{", "a", name_tag=26)
        if between:
            d.text(between)
    return d.card()


def keys(n):
    """One expression with n keys, each before the one that it follows."""
    d = Desk()
    d.begin()
    d.element(11, "{{", "f", *("k%04d=1" % (n - i) for i in range(n)))
    return d.card()


def long_keys(n):
    """n keys that begin alike for 8,000 bytes. No pairs: their spans overlap."""
    size = 8000 + n
    words = [1, 0, size, 11, 0, size, 21, 0, 1]
    for i in range(n):
        words += [32, 1, 1, 21, 0, 8000 + i, 26, 0, 0]
    return 0, words, b"k" * size


def blocks(depth):
    """64 blocks in towers."""
    d = Desk()
    d.begin()
    for _ in range(64 // depth):
        for _ in range(depth):
            d.block("b")
        for _ in range(depth):
            d.end_block("b")
    return d.card()


def subexpressions(depth):
    """A literal of 8,000 bytes inside this many subexpressions."""
    d = Desk()
    d.begin()
    d.body()
    x = d.open(11)
    d.put("{{")
    d.leaf(21, "f")
    open_spans = []
    for _ in range(depth):
        d.put(" ")
        open_spans.append(d.open(28))
        open_spans.append(d.open(27))
        d.put("(")
        d.leaf(21, "f")
    d.put(" ")
    d.value('"' + "x" * 8000 + '"')
    for _ in range(depth):
        d.put(")")
        d.close(open_spans.pop())
        d.close(open_spans.pop())
    d.put("}}")
    d.close(x)
    return d.card()


def literals(depth, n):
    """n literals inside this many subexpressions, each the same string of 8,000 bytes with blanks behind it. No pairs:
    their spans overlap."""
    size = 8000
    end = size + n + depth + 2
    words = [1, 0, end, 11, 0, end, 21, 0, 0]
    for k in range(depth):
        words += [28, 0, 0, 27, 0, end - 1 - k, 21, 0, 0]
    for i in range(n):
        words += [28, size + i, size + i, 29, 0, size + i, 0, 0, 0]
    return 0, words, b'"' + b"x" * (size - 2) + b'"' + b" " * (end - size)


def escapes(n):
    """A text with n escaped backslashes."""
    words = [1, 0, 2 * n, 2, 0, 2 * n]
    for i in range(n):
        words += [4, 2 * i, 2 * i + 1]
    return 0, words, b"\\x" * n


def blanks(size, tags):
    """Comments without text in the middle of blanks, all of which the standalone test of each is about."""
    words = [1, 0, size] + [19, size // 2, size // 2] * tags
    return 0, words, b" " * (size - 1) + b"\n"


def blank_lines(n):
    """The most of it that a parser makes: comments on lines of their own, with blanks on both sides."""
    d = Desk()
    d.begin()
    d.body()
    for _ in range(n):
        d.put(" " * 30)
        d.leaf(19, "{{!}}")
        d.put(" " * 29 + "\n")
    return d.card()


# ---- the slowest cards known: the readers pass over the same bytes or spans again and again. No pairs: the spans overlap.


def literals_over(b, depth=0):
    """As many literals as there can be, all over the same text, inside this many subexpressions. A parameter skips the
    spans that end no later than it does, so the next begins with a span that ends one byte after the literal."""
    n = len(b)
    end = n + 2 + depth
    words = [1, 0, end, 11, 0, end, 21, 0, 0]
    for k in range(depth):
        words += [32, 0, 0, 21, 0, 0, 27, 0, end - 1 - k, 21, 0, 0]
    words += [28, n + 1, n + 1, 29, 0, n, 0, 0, 0] * ((SPANS - len(words) // 3) // 3)
    return 0, words, b + b" " * (end - n)


def quoted_over(b):
    """The same for the inner text of single quotes."""
    n = len(b)
    words = [1, 0, n + 2, 11, 0, n + 2, 21, 0, 0]
    return 0, words + [28, n + 1, n + 1, 29, 0, n, 30, 0, n, 31, 0, n] * ((SPANS - 3) // 4), b + b"  "


def run(*pieces, room=TEXT - 2):
    """These in turn, as many as there is room for."""
    b = b""
    for k in range(TEXT):
        piece = pieces[k % len(pieces)]
        if room < len(b) + len(piece):
            break
        b += piece
    return b


def array(*items, room=TEXT - 3):
    return b"[" + run(*(i + b"," for i in items), room=room)[:-1] + b"]"


def string(*pieces):
    return b'"' + run(*pieces, room=TEXT - 4) + b'"'


def at_random(*pieces):
    """These in an order that no processor foresees: the same branches, and most of them mistaken."""
    r = random.Random(1)
    return [r.choice(pieces) for _ in range(TEXT)]


def indents():
    """Partials after blanks, all of which are the indent of each."""
    return 0, [1, 0, TEXT] + [14, TEXT, TEXT, 22, 0, 0] * ((SPANS - 1) // 2), b" " * TEXT


def passed_escapes():
    """Subexpressions that end where a run of escapes begins: each looks past them for what comes next."""
    words = [1, 0, TEXT, 11, 0, 100, 21, 0, 0]
    for k in range(32):
        words += [32, 0, 0, 21, 0, 0, 27, 0, 99 - k, 21, 0, 0]
    words += [4, 0, 1] * (SPANS - 1 - len(words) // 3) + [0, TEXT, TEXT]
    return 0, words, b"\\" * TEXT


def keys_alike():
    """Keys that are the same but for their lengths, as long as they can be."""
    n = (SPANS - 3) // 3
    words = [1, 0, TEXT, 11, 0, TEXT, 21, 0, 1]
    for i in range(n):
        words += [32, 1, 1, 21, 0, TEXT - n + i, 26, 0, 0]
    return 0, words, b"k" * TEXT


def segments():
    """A path of segments, each the whole text: the longest listing."""
    return 0, [1, 0, TEXT, 11, 0, TEXT, 26, 0, TEXT - 1] + [39, 0, TEXT - 1] * (SPANS - 3), b'"' * TEXT


def worst():
    pair = b"\\ud83d\\ude00"
    padded = (b"0", b"1", b" 0", b" 1", b"0 ", b"1 ")
    yield "worst-quoted-quotes", quoted_over(run(b'"'))
    yield "worst-quoted-x-quotes", quoted_over(run(b"x", b'"'))
    yield "worst-quoted-n", quoted_over(run(b"\\n"))
    yield "worst-quoted-mixed", quoted_over(run(b"\\n", b'"', b"\\u0041", b"x", b"\\'", pair))
    yield "worst-quoted-random", quoted_over(run(*at_random(b"x", b'"')))
    yield "worst-quoted-random-escapes", quoted_over(run(*at_random(b"x", b'"', b"\\b", b"\\\\")))
    yield "worst-array-0", literals_over(array(b"0"))
    yield "worst-array-numbers", literals_over(array(b"-1.5e+10"))
    yield "worst-array-objects", literals_over(array(b"{}"))
    yield "worst-array-random", literals_over(array(*at_random(b"0", b"1")))
    yield "worst-array-random-blanks", literals_over(array(*at_random(*padded)))
    yield "worst-array-deep", literals_over(array(*at_random(*padded), room=TEXT - 35), 32)
    yield "worst-string-mixed", literals_over(string(b"\\n", b"\\u0041", b"x", pair))
    yield "worst-string-random", literals_over(string(*at_random(b"x", b"\\b", b"\\\\")))
    yield "worst-indents", indents()
    yield "worst-escapes", passed_escapes()
    yield "worst-keys", keys_alike()
    yield "worst-segments", segments()


def doubling(name, last, make):
    """Five cards up to the last size."""
    return [("%s-%05d" % (name, last >> k), make(last >> k)) for k in (4, 3, 2, 1, 0)]


def all_cards():
    ribbons = [("1-small", 1), ("2-middle", 12), ("3-largest", most_picks())]
    yield from [("card-" + name, ribbon(picks)) for name, picks in ribbons]
    yield from [("refused-10-" + name, ribbon(picks, "with")) for name, picks in ribbons]
    yield "refused-14-largest", ribbon(most_picks())
    yield from texts()
    yield from worst()
    yield from doubling("text", 16384, text)
    yield from doubling("expressions", 1344, expressions)
    yield from doubling("expressions-in-text", 1008, lambda n: expressions(n, " x\n"))
    yield from doubling("keys", 800, keys)
    yield from doubling("long-keys", 1344, long_keys)
    yield from doubling("blocks-deep", 64, blocks)
    yield from doubling("subexpressions-deep", 32, subexpressions)
    yield from doubling("literals", 128, lambda n: literals(0, n))
    yield from doubling("literals-deep", 32, lambda depth: literals(depth, 8))
    yield from doubling("escapes", 4080, escapes)
    yield from doubling("blank-tags", 4080, lambda n: blanks(TEXT, n))
    yield from doubling("blank-bytes", TEXT, lambda n: blanks(n, 4080))
    yield from doubling("blank-lines", 248, blank_lines)


def main():
    os.makedirs(sys.argv[1], exist_ok=True)
    for name, card in all_cards():
        with open(os.path.join(sys.argv[1], name), "wb") as f:
            f.write(cards.record(*card))


if __name__ == "__main__":
    main()
