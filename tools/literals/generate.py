#!/usr/bin/env python3
"""Writes the stored texts of the program replay_literals and the verdicts that it must give.

    generate.py FOLDER      writes FOLDER/stdin and FOLDER/stdout

The verdicts come from Python's own JSON reader, held to RFC 8259: NaN and the infinities are turned away,
and so are unpaired surrogates; control characters in strings it turns away by itself. The reader says only
whether a whole text is JSON. That a text can still become one is asked by trying endings. The first byte
after which no ending helps is invalid; a byte that passes a limit is over; the earliest decides.
"""
import json
import random
import re
import sys

OPEN, DIGITS, POWER = 32, 15, 2


def refuse(name):
    raise ValueError(name)


def surrogate(value):
    """An unpaired surrogate stands in some string of the value."""
    if isinstance(value, str):
        return any(0xD800 <= ord(c) <= 0xDFFF for c in value)
    if isinstance(value, list):
        return any(surrogate(v) for v in value)
    return isinstance(value, tuple) and any(surrogate(v) for v in value)


def pairs(members):
    return [v for member in members for v in member]


def is_json(text):
    try:
        # each byte as a character of its own: what is not ASCII may stand in strings only
        value = json.loads(text.decode("latin-1"), parse_constant=refuse, object_pairs_hook=pairs)
    except (ValueError, RecursionError):
        return False
    return not surrogate(value)


NAMES = ["true", "false", "null"]
FIRST = ["", "0"] + [name[k:] for name in NAMES for k in range(1, 5) if name[k:]]
FIRST += ['"', 'n"', 'u0000"', '0000"', '000"', '00"', '0"']
FIRST += ['\\udc00"', 'udc00"', 'dc00"', 'c00"', '0\\udc00"', '00\\udc00"', '000\\udc00"', 'd800\\udc00"']
LATER = ["", ":0", "0", '"":0']


def brackets(text):
    """The closing brackets that are missing, innermost first, and how many are open."""
    stack, quoted, skip = [], False, False
    for c in text.decode("latin-1"):
        if skip:
            skip = False
        elif quoted:
            skip = c == "\\"
            quoted = c != '"'
        elif c == '"':
            quoted = True
        elif c in "[{":
            stack.append("]" if c == "[" else "}")
        elif c in "]}" and stack:
            stack.pop()
    return "".join(reversed(stack)), quoted


def goes_on(text):
    """Some JSON text starts with these bytes."""
    closing, _ = brackets(text)
    return any(is_json(text + (a + b + closing).encode()) for a in FIRST for b in LATER)


def passes(text):
    """The last byte passes a limit. The text goes on."""
    closing, quoted = brackets(text)
    if quoted:
        return False
    number = re.search(rb"(?:^|[\[\]{},:\s])-?([0-9]*)(?:\.([0-9]*))?(?:[eE][+-]?([0-9]*))?$", text)
    if len(closing) > OPEN:
        return True
    if not number:
        return False
    whole, fraction, power = (len(part or b"") for part in number.groups())
    return whole + fraction > DIGITS or power > POWER


def verdict(text):
    for end in range(1, len(text) + 1):
        if not goes_on(text[:end]):
            return "i"
        if passes(text[:end]):
            return "o"
    return "v" if is_json(text) else "i"


def requoted(inner):
    return b'"' + inner.replace(b"\\'", b"'").replace(b'"', b'\\"') + b'"'


# texts ------------------------------------------------------------------------------------------------


def spaces(rng):
    return "".join(rng.choice(" \t\n\r") for _ in range(rng.choice([0, 0, 0, 0, 1, 1, 2])))


def digits(rng, least, most):
    return "".join(rng.choice("0123456789") for _ in range(rng.randint(least, most)))


def number(rng):
    out = rng.choice(["", "", "-"])
    out += rng.choice(["0", rng.choice("123456789") + digits(rng, 0, rng.choice([0, 1, 3, 16]))])
    if rng.random() < 0.4:
        out += "." + digits(rng, 1, rng.choice([1, 4, 16]))
    if rng.random() < 0.4:
        out += rng.choice("eE") + rng.choice(["", "+", "-"]) + digits(rng, 1, rng.choice([1, 2, 3]))
    return out


def string(rng):
    out = '"'
    for _ in range(rng.choice([0, 1, 2, 4, 8])):
        kind = rng.random()
        if kind < 0.5:
            out += rng.choice("aZ0 /'[]{},:.\x7f\u00e9\u20ac\U0001f600")
        elif kind < 0.75:
            out += "\\" + rng.choice('"\\/bfnrt')
        elif kind < 0.9:
            out += "\\u" + rng.choice(["0041", "00e9", "d7FF", "E000", "ffff", "0000", "Df00"])
        else:
            out += "\\u" + rng.choice("dD") + rng.choice("89abAB") + "00\\u" + rng.choice("dD") + rng.choice("cdefCDEF") + "7f"
    return out + '"'


def value(rng, depth):
    kind = rng.random()
    if depth == 0 or kind < 0.45:
        return rng.choice([number, number, string, lambda r: r.choice(NAMES)])(rng)
    count = rng.choice([0, 1, 1, 2, 3])
    if kind < 0.72:
        items = [spaces(rng) + value(rng, depth - 1) + spaces(rng) for _ in range(count)]
        return "[" + (",".join(items) or spaces(rng)) + "]"
    members = [spaces(rng) + string(rng) + spaces(rng) + ":" + spaces(rng) + value(rng, depth - 1) + spaces(rng) for _ in range(count)]
    return "{" + (",".join(members) or spaces(rng)) + "}"


def damaged(rng, text):
    text = bytearray(text)
    for _ in range(rng.choice([1, 1, 1, 2, 3])):
        at = rng.randint(0, len(text))
        kind = rng.randint(0, 5)
        byte = rng.choice(rng.choice([b'"\\{}[],:+-.eE0189tfnuaDd \n', bytes(range(256))]))
        if kind == 0:
            text.insert(at, byte)
        elif kind == 1:
            del text[at:]
        elif text and at < len(text):
            if kind == 2:
                del text[at]
            elif kind == 3:
                text[at] = byte
            elif kind == 4:
                text[at], text[at - 1] = text[at - 1], text[at]
            else:
                text[at:at] = text[at : at + rng.randint(1, 4)]
    return bytes(text)


FIXED = r"""
||true|false|null|True|nul|nulll|truefalse|tru|t|f|n|undefined|NaN|Infinity|-Infinity
0|-0|00|01|-01|-|+1|--1|1.|.1|-.1|1.0|1.00|1.e1|1e|1e+|1e-|1E1|1e+1|1e-1|1e1.5|0e0|0.0e0|1 2|0x1|1_0|1e1e1|- 1|1 .5|1. 5|1e 5
""|"a"|"|"a|a"|'a'|"\t"|"	"|"\a"|"\x41"|"\'"|"\""|"\\"|"\/"|"\b\f\n\r"|"\u"|"\u0"|"\u00"|"\u004"|"\u0041"|"\u004g"|"\U0041"|"\u00411"
"\ud800"|"\udbff"|"\udc00"|"\udfff"|"\ud7ff"|"\ue000"|"\uD83D\uDE00"|"\ud83d\ude00"|"\ude00\ud83d"|"\ud800x"|"\ud800\n"|"\ud800\u0041"|"\ud800\ud800"
"\ud800\udbff"|"\ud800\udc00"|"\uDBFF\uDFFF"|"\ud800\"|"\ud800\u"|"\ud800\ud"|"\ud800\udc"|"\ud800\udc0"|"\ud8|"\ud80|"\udc|"\ud|"\ud800\udc00\udc00"
[]|[ ]|[1]|[1,2]|[1,]|[,1]|[,]|[1 2]|[1;2]|[|]|[[]|[]]|[1|[1,|(1)|[1}|[]1|[1]2|[ 1 , 2 ]|[true,false,null]|["a","b"]|[[],[[]],{}]|[1,,2]|["a":1]
{}|{ }|{"a":1}|{"a":1,"b":2}|{"a":1,}|{,}|{"a"}|{"a":}|{:1}|{a:1}|{'a':1}|{1:1}|{"a" 1}|{"a":1 "b":2}|{"a":1;"b":2}|{|}|{"a":1]|{"a":1|{"a":|{"a"|{"a":1,"a":2}|{ "a" : 1 , "b" : 2 }|{"a":{"b":[{}]}}|{"":""}|{null:1}|{"a"::1}|{"a":1:2}
1 | 1|	1	|//1|1//|/**/1|#1|1,|,|:|"a""b"|"a"1|1"a"|true1|true,|{}[]|[]{}|{}{}
"""


def fixed():
    for line in FIXED.strip("\n").split("\n"):
        for text in line.split("|"):
            yield text.encode()
    yield from [b"1\n", b"\r\n1", b"\n[\n1\n,\r2\n]\n", b"\x0b1", b"\x0c1", b"1\x00"]
    for byte in range(256):
        yield bytes([byte])
        yield b'"' + bytes([byte]) + b'"'
        yield b"1" + bytes([byte])
        yield b"[1" + bytes([byte]) + b"]"
        yield b'"\\' + bytes([byte]) + b'"'
    yield b"\xef\xbb\xbf1"
    yield b"\xef\xbb\xbf"


def at_limits():
    for count in range(13, 19):
        whole = b"1234567890123456789"[:count]
        for text in [whole, b"-" + whole, whole[:1] + b"." + whole[1:], b"0." + b"0" * (count - 1), whole[:-1] + b"." + whole[-1:], whole + b".", whole + b".x", whole + b"x", whole + b"e", whole + b"e1", whole + b"e99", whole + b"e100"]:
            yield text
            yield b"[" + text + b"]"
            yield b'{"a":' + text + b"}"
        yield b"0" * count
        yield b'"' + whole * 3 + b'"'
    for power in [b"", b"0", b"1", b"00", b"01", b"99", b"000", b"001", b"100", b"999", b"1000"]:
        for sign in [b"", b"+", b"-", b"+-"]:
            for rest in [b"", b"x", b".", b" ", b",1"]:
                yield b"1e" + sign + power + rest
                yield b"[0.5E" + sign + power + rest + b"]"
    for depth in range(30, 36):
        for opening, closing, inner in [(b"[", b"]", b""), (b"[", b"]", b"1"), (b'{"":', b"}", b"1"), (b'[{"":', b"}]", b"1"), (b"[1,", b"]", b"1")]:
            for most in [depth] if len(opening) < 5 else [depth // 2]:
                text = opening * most + inner + closing * most
                yield text
                yield text[:-1]
                yield text + closing
                yield opening * most
                yield opening * most + b"x"
                yield opening * (most - 1) + b"]"
                yield b"[" + text + b",1234567890123456]"
    yield b"[" * 32 + b"1234567890123456" + b"]" * 32
    yield b"[" * 32 + b"1e100" + b"]" * 32
    yield b"[" * 32 + b"]" * 32 + b"["
    yield b"[[]," * 40 + b"1" + b"]" * 40
    yield b"[]" + b"[" * 40
    yield b'"' + b"[" * 100 + b'"'


def literals(rng):
    yield from fixed()
    yield from at_limits()
    good = [(spaces(rng) + value(rng, rng.choice([0, 1, 2, 3])) + spaces(rng)).encode() for _ in range(900)]
    yield from good
    for _ in range(1300):
        yield damaged(rng, rng.choice(good))
    for _ in range(200):
        yield bytes(rng.randrange(256) for _ in range(rng.randint(0, 12)))
    for _ in range(300):
        yield bytes(rng.choice(b'"\\{}[],:+-.eE0189tfnu ') for _ in range(rng.randint(1, 10)))


def inners(rng):
    yield from [b"", b"'", b'"', b"\\", b"\\'", b'\\"', b"\\\\", b"\\\\'", b'\\\\"', b"\\\\\\'", b"it\\'s", b'say "x"', b"\\n", b"\\u0041", b"\\ud800", b"\\ud83d\\ude00", b"\n", b"a\\", b"\\'\\'", b"''", b'""', b"'\\\"'", b"\xc3\xa9"]
    for _ in range(500):
        yield bytes(rng.choice(b"\\\\''\"\"abnu0d8c") for _ in range(rng.randint(0, 9)))
    for _ in range(150):
        text = string(rng).encode()[1:-1]
        yield text.replace(b'\\"', b'"').replace(b"'", b"\\'") if rng.random() < 0.5 else text
    for _ in range(50):
        yield bytes(rng.randrange(256) for _ in range(rng.randint(0, 12)))


def main(folder):
    rng = random.Random(8259)
    seen, records, answers, counts = set(), bytearray(), bytearray(), {"v": 0, "i": 0, "o": 0}
    for kind, texts in [(b"l", literals(rng)), (b"q", inners(rng))]:
        for text in texts:
            if len(text) > 255 or (kind, text) in seen:
                continue
            seen.add((kind, text))
            records += kind + bytes([len(text)]) + text
            judged = text if kind == b"l" else requoted(text)
            answer = verdict(judged)
            counts[answer] += 1
            answers += answer.encode() + (b"" if kind == b"l" else b" " + judged) + b"\n"
    with open(folder + "/stdin", "wb") as out:
        out.write(records)
    with open(folder + "/stdout", "wb") as out:
        out.write(answers)
    print(len(seen), "texts,", len(records), "bytes;", counts)


if __name__ == "__main__":
    main(sys.argv[1])
