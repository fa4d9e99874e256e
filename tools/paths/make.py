#!/usr/bin/env python3
"""Stored span lists and the answers that document 01 asks for, for the program replay_json_path.

Written from document 01's "Span record" and "Path record" alone: whole lists are made first, and
filtered, where the port goes by a cursor. Writes crates/replay_json_path/stdin and stdout.
"""
import os
import re
import sys

ESCAPE = 4
LARGEST = 0xFFFFFFFF
ROOT = os.path.join(os.path.dirname(os.path.abspath(__file__)), "..", "..")


# ---- document 01

def spans_of(words):
    """(number, tag, start, end) of each whole three; words left over are no span."""
    return [(i, *words[3 * i : 3 * i + 3]) for i in range(len(words) // 3)]


def part(text, start, end):
    """The bytes from start to end, as far as there are any."""
    return text[start:end] if start < end else b""


def walked(words, k):
    return [s for s in spans_of(words) if s[0] >= k and s[1] != ESCAPE]


def first_number(spans):
    return b"%d" % spans[0][0] if spans else b"end"


def after_limit(spans, limit):
    """What is left when spans are taken while their end is not beyond the limit."""
    past = [i for i, s in enumerate(spans) if s[3] > limit]
    return spans[past[0] :] if past else []


def segments(text, spans):
    kinds = {36: "r", 37: "h", 38: "u", 39: "n", 40: "n"}
    given = [(kinds[tag], part(text, start, end)) for _, tag, start, end in spans if tag in kinds]
    return [g for g in given if g[0] != "n" or g[1] != b"this"]


def path(text, words, reference, at):
    spans = walked(words, at)
    rest = after_limit(spans, reference[3])
    segs = segments(text, spans[: len(spans) - len(rest)])
    local = re.match("h(u*)n", "".join(kind for kind, _ in segs))
    if local:
        level = len(local.group(1))
        out = b" local %d %s" % (level, segs[1 + level][1])
    else:
        said = {"r": b" root", "h": b" here", "u": b" up"}
        out = b" path" + b"".join(b" seg " + t if k == "n" else said[k] for k, t in segs)
    return out + b" raw " + part(text, reference[2], reference[3]) + b" then " + first_number(rest)


def answers(text, words):
    spans = spans_of(words)
    out = [b"count %d\n" % len(spans)]
    for k in list(range(len(spans) + 2)) + [2**64 - 1]:
        # past the end of the words each reads as 0
        tag, start, end = (words[3 * k + j] if 3 * k + j < len(words) else 0 for j in range(3))
        escape = b"%d" % k if k < len(spans) and tag == ESCAPE else b"none"
        at = k + 1 if k < len(spans) else k
        out.append(
            b"span %d tag %d %d %d next %s escape %s skip %s%s\n"
            % (
                k,
                tag,
                start,
                end,
                first_number(walked(words, k)),
                escape,
                first_number(after_limit(walked(words, k), end)),
                path(text, words, (k, tag, start, end), at),
            )
        )
    return b"".join(out)


# ---- records

class Numbers:
    """A linear congruential generator, so that the records are the same everywhere."""

    def __init__(self, seed):
        self.state = seed

    def below(self, n):
        self.state = (self.state * 6364136223846793005 + 1442695040888963407) % 2**64
        return (self.state >> 33) % n

    def pick(self, items):
        return items[self.below(len(items))]


def chosen():
    """Records written by hand: (text, spans)."""
    at = b"@../index"
    yield b"", []
    yield b"a", [(26, 0, 1), (39, 0, 1)]
    yield at, [(26, 0, 9), (37, 0, 1), (38, 1, 3), (39, 4, 9)]
    yield b"@..", [(26, 0, 3), (37, 0, 1), (38, 1, 3)]
    yield b"@index", [(26, 0, 6), (37, 0, 1), (39, 1, 6)]
    yield b"@this.a", [(26, 0, 7), (37, 0, 1), (39, 1, 5), (39, 6, 7), (0, 7, 7)]
    yield b"this", [(26, 0, 4), (39, 0, 4)]
    yield b"[this]", [(26, 0, 6), (40, 1, 5)]
    yield b"thi", [(26, 0, 3), (39, 0, 3)]
    yield b"thisx", [(26, 0, 5), (39, 0, 5)]
    yield b"../a/b", [(26, 0, 6), (38, 0, 2), (39, 3, 4), (39, 5, 6)]
    yield b"@root/a", [(26, 0, 7), (36, 0, 5), (39, 6, 7)]
    yield b"@root/a", [(26, 0, 7), (37, 0, 1), (36, 0, 5), (39, 6, 7)]
    yield b"@@a", [(26, 0, 3), (37, 0, 1), (37, 1, 2), (39, 2, 3)]
    yield b"@a.b", [(26, 0, 4), (37, 0, 1), (39, 1, 2), (39, 3, 4)]
    # escapes between, and right after the reference
    yield at, [(26, 0, 9), (4, 0, 1), (37, 0, 1), (4, 9, 10), (38, 1, 3), (39, 4, 9), (4, 0, 0)]
    yield b"\\{{a}}", [(1, 0, 6), (2, 0, 6), (4, 0, 1), (4, 1, 2), (2, 2, 6), (4, 2, 3)]
    yield b"ab", [(4, 0, 1), (4, 1, 2)]
    # unsorted, overlapping, past the end, the reference inside its path
    yield b"abcdef", [(26, 0, 6), (39, 4, 6), (39, 0, 2), (39, 1, 5)]
    yield b"abcdef", [(26, 0, 3), (39, 0, 2), (39, 2, 4), (39, 1, 2)]
    yield b"abc", [(26, 0, 3), (39, 5, 2), (39, 1, 3), (40, 3, 3)]
    yield b"abc", [(26, 1, 9), (39, 2, 9), (39, 9, 9)]
    yield b"abc", [(26, 0, LARGEST), (37, LARGEST, LARGEST), (39, 0, LARGEST), (LARGEST, 0, 1)]
    yield b"abc", [(LARGEST, LARGEST, LARGEST), (26, LARGEST, 0), (39, 0, 0)]
    # tags beside those of a path
    yield b"abcdef", [(26, 0, 6), (35, 0, 1), (36, 1, 2), (41, 2, 3), (40, 3, 4), (3, 4, 5), (5, 5, 6)]
    # bytes that are no UTF-8
    yield b"\xff\xfe\x80", [(26, 0, 3), (37, 0, 1), (39, 1, 2), (39, 2, 3)]


def drawn(n):
    """A list drawn at random: mostly tags of a path, ends near or at the reference's."""
    text = n.pick([b"@../../key.this.x", b"this/this/a", b"@root.[this].b", b"../@index", b"a.b.c.d.e", b""])
    size = len(text)
    spans = [(26, 0, n.below(size + 1))]
    for _ in range(n.below(7)):
        tag = n.pick([36, 37, 37, 38, 38, 38, 39, 39, 40, 4, 4, 35, 41, 26, n.below(45), LARGEST])
        start = n.below(size + 2)
        end = n.pick([start, start + n.below(4), start + n.below(6), n.below(size + 3)])
        if n.below(20) == 0:
            end = n.pick([LARGEST, LARGEST - 1, 65536])
        if tag in (39, 40) and b"this" in text and n.below(3) == 0:
            start = text.index(b"this")
            end = start + 4
        spans.append((tag, start, end))
    return text, spans


def shaped(n):
    """Here, ups and a name at the front, with a change now and then."""
    text = b"@../../../name"
    tags = [37] + [38] * n.below(4) + [n.pick([39, 40, 39, 36, 37, 0])] + [39] * n.below(2)
    if n.below(4) == 0:
        tags.insert(n.below(len(tags) + 1), n.pick([4, 4, 36, 37, 5]))
    spans = [(26, 0, len(text))]
    spans += [(t, 10, 14) if t in (39, 40) else (t, 0, 1 + n.below(3)) for t in tags]
    return text, spans


def records():
    for text, spans in chosen():
        yield text, [w for s in spans for w in s]
    n = Numbers(1)
    for i in range(240):
        text, spans = drawn(n) if i % 3 else shaped(n)
        words = [w for s in spans for w in s]
        # words not in threes
        if n.below(8) == 0:
            words += [n.pick([0, 4, 39, LARGEST])] * (1 + n.below(2))
        yield text, words


def main():
    asked, said = [], []
    for text, words in records():
        asked.append(text + b"\n" + b" ".join(b"%d" % w for w in words) + b"\n")
        said.append(answers(text, words))
    folder = os.path.join(ROOT, "crates", "replay_json_path")
    for name, lines in (("stdin", asked), ("stdout", said)):
        with open(os.path.join(folder, name), "wb") as f:
            f.write(b"".join(lines))
    print("%d records, %d bytes asked, %d bytes answered" % (len(asked), len(b"".join(asked)), len(b"".join(said))))


if __name__ == "__main__":
    sys.exit(main())
