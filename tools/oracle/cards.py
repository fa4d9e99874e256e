#!/usr/bin/env python3
"""Random cards: options, span words and a text.

    cards.py KIND SEED COUNT > RECORDS

KIND  good     text and span list made together, in the order in which a parser flattens its pairs;
               about one in twelve may have faulty literals or end names
      damaged  good ones with one to three changes of a span, the text or the options
      weird    lists that are pairs, but that no parser makes
      deep     around the limits on open blocks and on subexpressions
      long     long listings, of up to 72,000 bytes
Form of a record: README.md.
"""
import random
import struct
import sys


ASCII_WS = " \t\n\r"
UNI_WS = ["\u00a0", "\u2003", "\u3000", "\u0085", "\u1680", "\u2028", "\u2029",
          "\u202f", "\u205f", "\u000b", "\u000c"]
NOT_WS = ["\u200b", "\ufeff", "\u180e", "\x1c", "\x1f", "\x00"]
NAMES = ["if", "unless", "each", "with", "a", "b", "foo", "x1", "é", "日本", "else1",
         "lookup", "inline", "long_name"]


def record(options, words, text):
    head = struct.pack("<%dI" % (3 + len(words)), options, len(words), len(text), *words)
    return head + text


class Writer:
    """A text and its spans, made together."""

    def __init__(self):
        self.t = bytearray()
        self.s = []

    def put(self, s):
        self.t += s.encode() if isinstance(s, str) else s

    def open(self, tag):
        self.s.append([tag, len(self.t), None])
        return self.s[-1]

    def close(self, span):
        span[2] = len(self.t)

    def leaf(self, tag, s):
        sp = self.open(tag)
        self.put(s)
        self.close(sp)


class Gen(Writer):
    def __init__(self, rng):
        super().__init__()
        self.r = rng
        self.depth = 0
        self.budget = rng.choice([3, 6, 10, 20, 40])
        self.fault = rng.random() < 0.08          # may write faulty literals, names
        self.crlf = rng.random() < 0.25
        self.tilde = rng.choice([0, 0.05, 0.25, 0.5])

    def chance(self, p):
        return self.r.random() < p

    def nl(self):
        return "\r\n" if self.crlf and self.chance(0.9) else self.r.choice(["\n"] * 12 + ["\r", "\r\n"])

    def ws(self):
        """white space inside a tag"""
        return self.r.choice([" ", " ", " ", "  ", "\t", "\n"])

    def optws(self):
        return self.ws() if self.chance(0.1) else ""

    # ---- literals
    def string_body(self, q):
        out = []
        for _ in range(self.r.choice([0, 1, 1, 2, 3, 5])):
            k = self.r.random()
            if k < 0.6:
                out.append(self.r.choice(["a", "b", " ", "é", "日", "{", "/", "1", "\u00a0", "😀"]))
            elif k < 0.75:
                out.append(self.r.choice(["\\n", "\\t", "\\\\", "\\/", "\\b", "\\u0041", "\\u00e9",
                                          "\\ud83d\\ude00", "\\r", "\\f"]))
            elif k < 0.85:
                out.append("\\'" if q == "'" else "\\\"")
            elif k < 0.95:
                out.append("\"" if q == "'" else "'")
            elif self.fault:
                out.append(self.r.choice(["\\ud800", "\\udc00", "\\\"", "\\'", "\n", "\t", "\\ud800\\u0041",
                                          "\\x", "\\u12", "\\ud800\\ud800\\udc00", "\\"]))
        return "".join(out)

    def number(self):
        if self.fault and self.chance(0.3):
            return self.r.choice(["01", "-", "1.", ".5", "1e", "1e+", "--1", "+1", "1234567890123456",
                                  "1e100", "00", "-01", "1.e3", "0.123456789012345", "1e001",
                                  "123456789012345.6", "1e-100"])
        return self.r.choice(["0", "1", "-1", "12", "-0", "1.5", "10.25", "1e5", "1E+05", "2e-9", "-0.0",
                              "123456789012345", "0.12345678901234", "1.0", "1e99", "1e00", "100",
                              "99999999999999.9e-99"])

    def literal(self, depth=0):
        lit = self.open(29)
        k = self.r.random()
        if k < 0.25 or k < 0.55 and depth and not self.fault:
            # (single quotes inside an array or object are no JSON)
            st = self.open(30)
            self.put('"')
            self.leaf(0, self.string_body('"'))
            self.put('"')
            self.close(st)
        elif k < 0.55:
            st = self.open(30)
            self.put("'")
            self.leaf(31, self.string_body("'"))
            self.put("'")
            self.close(st)
        elif k < 0.75 or depth > 3:
            self.leaf(0, self.number())
        elif k < 0.85:
            self.leaf(0, self.r.choice(["true", "false", "null"]))
        elif k < 0.93:
            ar = self.open(0)
            self.put("[" + self.optws())
            n = self.r.choice([0, 1, 2, 3])
            for i in range(n):
                self.literal(depth + 1)
                self.put(self.optws() + ("," + self.optws() if i + 1 < n else ""))
            if self.fault and self.chance(0.1):
                self.put(",")
            self.put("]")
            self.close(ar)
        else:
            ob = self.open(0)
            self.put("{" + self.optws())
            n = self.r.choice([0, 1, 2])
            for i in range(n):
                st = self.open(30)
                self.put('"')
                self.leaf(0, self.string_body('"'))
                self.put('"')
                self.close(st)
                self.put(self.optws() + ":" + self.optws())
                self.literal(depth + 1)
                self.put(self.optws() + ("," + self.optws() if i + 1 < n else ""))
            self.put("}")
            self.close(ob)
        self.close(lit)

    # ---- paths
    def reference(self):
        ref = self.open(26)
        k = self.r.random()
        if k < 0.1:
            if self.chance(0.3):
                self.leaf(39, "this")
            else:
                self.put("this")
        elif k < 0.15:
            self.put(".")
        else:
            if k < 0.25:
                self.put(self.r.choice(["this.", "this/", "./"]))
            elif k < 0.32:
                self.leaf(36, "@root")
                self.put(self.r.choice("/."))
            elif k < 0.5:
                self.leaf(37, "@")
                for _ in range(self.r.choice([0, 0, 0, 1, 1, 2, 3])):
                    self.leaf(38, "..")
                    self.put("/")
            else:
                for _ in range(self.r.choice([0, 0, 0, 0, 1, 2])):
                    self.leaf(38, "..")
                    self.put("/")
            n = self.r.choice([1, 1, 1, 2, 3])
            if self.chance(0.04):
                n = 0
            for i in range(n):
                j = self.r.random()
                if j < 0.75:
                    self.leaf(39, self.r.choice(["a", "b", "index", "first", "é", "this", "name", "0"]))
                elif j < 0.92:
                    self.put("[")
                    self.leaf(40, self.r.choice(["a b", "", "this", "x/y", "日", "\"", "\\", "a\nb"]))
                    self.put("]")
                else:
                    self.leaf(38, "..")
                if i + 1 < n:
                    self.put(self.r.choice("/."))
        self.close(ref)

    # ---- expressions
    def subexpression(self, depth):
        sub = self.open(27)
        self.put("(" + self.optws())
        if self.chance(0.1):
            self.reference()
        else:
            self.leaf(21, self.r.choice(NAMES))
            self.args(depth + 1, 1)
        self.put(self.optws() + ")")
        self.close(sub)

    def param(self, depth):
        p = self.open(28)
        k = self.r.random()
        if k < 0.45:
            self.reference()
        elif k < 0.8 or depth > 3:
            self.literal()
        else:
            self.subexpression(depth)
        self.close(p)

    def args(self, depth, least=0):
        n = max(least, self.r.choice([0, 0, 1, 1, 2, 3]))
        for _ in range(n):
            self.put(self.ws())
            if self.chance(0.3):
                h = self.open(32)
                self.leaf(21, self.r.choice(["k", "a", "b", "é", "zz", "A", "ab"]))
                self.put(self.optws() + "=" + self.optws())
                self.param(depth)
                self.close(h)
            else:
                self.param(depth)

    def block_param(self, p):
        if self.chance(p):
            self.put(self.ws())
            b = self.open(33)
            self.put("as |")
            self.leaf(21, self.r.choice(["i", "val", "é"]))
            if self.chance(0.5):
                self.put(" ")
                self.leaf(21, self.r.choice(["k", "key"]))
            self.put("|")
            self.close(b)

    def pre(self):
        if self.chance(self.tilde):
            self.leaf(34, "~")

    def pro(self):
        if self.chance(self.tilde):
            self.leaf(35, "~")

    def helper_name(self):
        if self.chance(0.05):
            self.reference()
        elif self.chance(0.02):
            self.subexpression(1)
        else:
            self.leaf(21, self.r.choice(NAMES))

    def partial_name(self):
        k = self.r.random()
        if k < 0.7:
            self.leaf(22, self.r.choice(["p", "a/b", "x.y", "@partial-block", "[q r]", "'s t'"]))
        elif k < 0.85:
            self.reference()
        else:
            self.subexpression(1)

    def name_from(self, at):
        """the name's text and whether it has one: first name-like span from at"""
        for tag, a, b in self.s[at:]:
            if 21 <= tag <= 27:
                return (None if tag == 27 else bytes(self.t[a:b])), tag
        return None, 0

    def exp_line(self, bp):
        self.put(self.optws())
        self.helper_name()
        self.args(0)
        self.block_param(bp)
        self.put(self.optws())

    # ---- elements
    def expression(self):
        x = self.open(11)
        self.put("{{")
        self.pre()
        self.put(self.optws())
        k = self.r.random()
        if k < 0.5:
            self.reference()
        elif k < 0.6:
            self.subexpression(0)
        else:
            self.leaf(21, self.r.choice(NAMES))
            self.args(0, 1)
        self.put(self.optws())
        self.pro()
        self.put("}}")
        self.close(x)

    def html(self):
        x = self.open(12)
        a, b = self.r.choice([("{{{", "}}}"), ("{{&", "}}"), ("{{", "}}")])
        if a == "{{":
            self.put("{{")
            self.pre()
            self.put("{")
        elif a == "{{&":
            self.put("{{")
            self.pre()
            self.put("&")
        else:
            self.put(a)
            self.pre()
        if self.chance(0.6):
            self.reference()
        else:
            self.leaf(21, self.r.choice(NAMES))
            self.args(0, 1)
        if a == "{{":
            self.put("}")
            self.pro()
            self.put("}}")
        elif a == "{{&":
            self.pro()
            self.put("}}")
        else:
            self.pro()
            self.put("}}}")
        self.close(x)

    def decorator(self):
        x = self.open(13)
        self.put("{{")
        self.pre()
        self.put("*")
        self.exp_line(0.05)
        self.pro()
        self.put("}}")
        self.close(x)

    def partial(self):
        x = self.open(14)
        self.put("{{")
        self.pre()
        self.put(">" + self.optws())
        self.partial_name()
        self.args(0)
        self.put(self.optws())
        self.pro()
        self.put("}}")
        self.close(x)

    def comment(self):
        body = "".join(self.r.choice(["a", " ", "\n", "é", "!", "{{!", "-", "}", "--", "x"])
                       for _ in range(self.r.choice([0, 1, 3, 6])))
        if self.chance(0.5):
            self.leaf(19, "{{!" + body.replace("}}", "") + self.r.choice(["}}", "}}", "}}", "}}}}"]))
        else:
            self.leaf(20, "{{!--" + body + self.r.choice(["--}}", "--}}", "----}}", "--}}--}}"]))

    def end_tag(self, tag, name, name_tag, opener="{{", closer="}}"):
        e = self.open(tag)
        self.put(opener)
        self.pre()
        self.put("/")
        if self.fault and self.chance(0.2):
            if self.chance(0.5):
                self.leaf(name_tag, self.r.choice(["zzz", "if", ""]))
            else:
                self.reference()
        elif name is None:
            if self.chance(0.5):
                self.subexpression(1)
            else:
                self.leaf(name_tag, "q")
        elif tag in (17, 18) and self.chance(0.2):
            self.leaf(name_tag, "")
        elif self.chance(0.05) and name:
            ref = self.open(26)
            self.leaf(39, name)
            self.close(ref)
        else:
            self.leaf(name_tag, name)
        self.pro()
        self.put(closer)
        self.close(e)

    def helper_block(self):
        at = len(self.s)
        x = self.open(5)
        self.put("{{")
        self.pre()
        self.put(self.r.choice(["#", "#", "#", "#*"])[:1])
        self.exp_line(0.3)
        self.pro()
        self.put("}}")
        self.close(x)
        name, _ = self.name_from(at)
        self.template()
        for _ in range(self.r.choice([0, 0, 0, 1, 1, 2, 3])):
            c = self.open(10)
            self.put("{{")
            self.pre()
            self.leaf(25, self.r.choice(["else", "^"]))
            self.put(" ")
            if self.chance(0.05):
                self.pre()
            self.exp_line(0.2)
            self.pro()
            self.put("}}")
            self.close(c)
            self.template()
        if self.chance(0.4):
            c = self.open(9)
            self.put("{{")
            self.pre()
            self.leaf(25, self.r.choice(["else", "^"]))
            self.pro()
            self.put("}}")
            self.close(c)
            self.template()
        self.end_tag(15, name, self.r.choice([21, 21, 23]))

    def raw_block(self):
        at = len(self.s)
        x = self.open(6)
        self.put("{{{{")
        self.pre()
        self.exp_line(0.2)
        self.pro()
        self.put("}}}}")
        self.close(x)
        name, _ = self.name_from(at)
        t = self.text_pieces()
        tilde = any(sp[0] == 35 for sp in self.s[at:])
        if not tilde and self.chance(0.15):
            # white space only: the gap before the end tag, no raw_block_text
            # (with a right tilde the gap is lost: 7, and a panic or a later
            # error in the crate, so only the damaged cards have that)
            self.put("".join(self.r.choice([" ", "\n", "\t", "\r\n"]) for _ in range(self.r.choice([1, 2, 3]))))
        else:
            lead = ""
            while t and not isinstance(t[0], tuple) and t[0] in ASCII_WS and self.chance(0.97):
                lead += t.pop(0)
            self.put(lead)
            self.text_span(3, t)
        self.end_tag(16, name, self.r.choice([21, 23]), "{{{{", "}}}}")

    def decorator_block(self):
        at = len(self.s)
        x = self.open(7)
        self.put("{{")
        self.pre()
        self.put("#*")
        self.exp_line(0.05)
        self.pro()
        self.put("}}")
        self.close(x)
        name, _ = self.name_from(at)
        self.template()
        self.end_tag(17, name, self.r.choice([21, 23]))

    def partial_block(self):
        at = len(self.s)
        x = self.open(8)
        self.put("{{")
        self.pre()
        self.put("#>" + self.optws())
        self.partial_name()
        self.args(0)
        self.block_param(0.05)
        self.put(self.optws())
        self.pro()
        self.put("}}")
        self.close(x)
        name, _ = self.name_from(at)
        self.template()
        self.end_tag(18, name, self.r.choice([22, 24]))

    # ---- text
    def text_pieces(self):
        """a list of characters and escapes (tuples)"""
        out = []
        n = self.r.choice([0, 1, 1, 2, 3, 5, 8])
        for _ in range(n):
            k = self.r.random()
            if k < 0.3:
                out.append(self.r.choice("abcxyz.!\"\\'}{<"))
            elif k < 0.55:
                out.append(self.r.choice([" ", " ", "\t"]))
            elif k < 0.82:
                out.extend(self.nl())
            elif k < 0.88:
                out.append(self.r.choice(UNI_WS))
            elif k < 0.90:
                out.append(self.r.choice(NOT_WS))
            elif k < 0.95:
                out.append(self.r.choice(["é", "日", "😀", "ß"]))
            else:
                out.append((self.r.choice(["\\{{", "\\{{{{", "\\\\", "\\\\\\"]),))
        # no accidental tag opening in plain text matters: the spans decide
        return out

    def text_span(self, tag, pieces):
        sp = self.open(tag)
        for p in pieces:
            if isinstance(p, tuple):
                self.leaf(4, p[0])
            else:
                self.put(p)
        self.close(sp)

    def lead(self):
        """white space before or after a tag on its own line, often"""
        out = []
        if self.chance(0.5):
            out.extend(self.nl())
            for _ in range(self.r.choice([0, 0, 1, 2])):
                out.append(self.r.choice(" \t"))
        return out

    def template(self, root=False):
        self.depth += 1
        pieces = []       # lists (text) and callables (tags)
        n = self.r.choice([0, 1, 1, 2, 3, 4]) if not root else self.r.choice([1, 2, 3, 4, 6])
        text = self.lead() if not root else []
        for _ in range(n):
            if self.budget <= 0:
                break
            self.budget -= 1
            if self.chance(0.5):
                text += self.text_pieces()
            text += self.lead()
            if text:
                pieces.append(text)
            k = self.r.random()
            if self.depth > 8:
                k *= 0.6
            if k < 0.18:
                pieces.append(self.expression)
            elif k < 0.25:
                pieces.append(self.html)
            elif k < 0.32:
                pieces.append(self.decorator)
            elif k < 0.43:
                pieces.append(self.partial)
            elif k < 0.55:
                pieces.append(self.comment)
            elif k < 0.65:
                pieces.append(self.raw_block)
            elif k < 0.87:
                pieces.append(self.helper_block)
            elif k < 0.94:
                pieces.append(self.decorator_block)
            else:
                pieces.append(self.partial_block)
            text = []
            if self.chance(0.6):
                text = ["", " ", "\t", "  "][self.r.choice([0, 0, 0, 1, 2, 3])]
                text = list(text)
                text.extend(self.nl())
        if self.chance(0.4):
            text += self.text_pieces()
        if text:
            pieces.append(text)
        # now the flattening, white space skipped as pest does between items
        first = True
        sp = None
        if root:
            sp = self.open(1)
        last_end = len(self.t)
        for p in pieces:
            if isinstance(p, list):
                skip = 0
                if not (root and first):
                    while skip < len(p) and not isinstance(p[skip], tuple) and p[skip] in ASCII_WS:
                        skip += 1
                self.put("".join(p[:skip]))
                if sp is None:
                    sp = self.open(1)
                    last_end = len(self.t)
                if p[skip:]:
                    self.text_span(2, p[skip:])
                    last_end = len(self.t)
            else:
                if sp is None:
                    sp = self.open(1)
                p()
                last_end = len(self.t)
            first = False
        if sp is None:
            sp = self.open(1)
            last_end = len(self.t)
        sp[2] = last_end
        self.depth -= 1

    def card(self):
        self.template(root=True)
        k = self.r.random()
        if k < 0.85:
            self.s.append([0, len(self.t), len(self.t)])
        options = self.r.choice([0, 0, 0, 1, 2, 3])
        return options, [w for s in self.s for w in s], bytes(self.t)


def good(rng):
    while True:
        c = Gen(rng).card()
        if len(c[2]) <= 16384 and len(c[1]) <= 3 * 4096:
            return c


def damaged(rng):
    options, words, text = good(rng)
    spans = [words[i:i + 3] for i in range(0, len(words), 3)]
    extra = []
    for _ in range(rng.choice([1, 1, 1, 2, 3])):
        k = rng.random()
        if not spans:
            break
        i = rng.randrange(len(spans))
        if k < 0.2:
            del spans[i]
        elif k < 0.3:
            spans.insert(i, list(spans[i]))
        elif k < 0.55:
            spans[i][0] = rng.choice([0, 1, 2, 3, 4, 5, 6, 9, 10, 11, 15, 16, 17, 18, 21, 26, 27, 28, 29, 30,
                                      31, 32, 33, 34, 35, 37, 38, 39, rng.randrange(41), rng.randrange(41)])
        elif k < 0.7:
            j = rng.choice([1, 2])
            spans[i][j] = max(0, spans[i][j] + rng.choice([-2, -1, 1, 2]))
        elif k < 0.75:
            j = rng.randrange(len(spans))
            spans[i], spans[j] = spans[j], spans[i]
        elif k < 0.8:
            del spans[i:]
        elif k < 0.85 and text:
            j = rng.randrange(len(text))
            text = text[:j] + bytes([rng.choice([0x20, 0x0A, 0x0D, 0x5C, 0x22, 0x27, 0xFF, 0xC3, 0x80, 0x7E,
                                                 rng.randrange(256)])]) + text[j + 1:]
        elif k < 0.88:
            text = text[:rng.randrange(len(text) + 1)]
        elif k < 0.9:
            options = rng.choice([0, 1, 2, 3, 4, 99])
        elif k < 0.95:
            a = rng.randrange(len(text) + 1)
            spans.insert(i, [rng.randrange(41), a, min(len(text), a + rng.choice([0, 1, 1, 2, 3]))])
        elif k < 0.97:
            spans[i][0] = rng.choice([41, 42, 99999])
        else:
            extra = [1]
    return options, [w for s in spans for w in s] + extra, text


class Deep(Gen):
    """Around the limits: 64 open blocks and else-ifs, 32 subexpressions, 32 brackets in a literal."""

    def nest(self, left):
        tag = self.r.choice([5, 5, 5, 7, 8])
        at = len(self.s)
        x = self.open(tag)
        self.put("{{#")
        self.leaf(21, self.r.choice("ab"))
        if self.chance(0.03):
            self.put(" ")
            self.deep_param(self.r.choice([31, 32, 33]))
        self.put("}}")
        self.close(x)
        name, _ = self.name_from(at)
        left -= 1
        while True:
            sp = self.open(1)
            if left > 0 and self.chance(0.97 if tag != 5 else 0.6):
                self.nest(left)
                if self.chance(0.7):
                    left = 0
            elif self.chance(0.3):
                self.leaf(2, "x")
            self.close(sp)
            if tag == 5 and left > 0 and self.chance(0.8):
                c = self.open(10)
                self.put("{{")
                self.leaf(25, "else")
                self.put(" ")
                self.leaf(21, "c")
                self.put("}}")
                self.close(c)
                left -= 1
                continue
            break
        self.end_tag({5: 15, 7: 17, 8: 18}[tag], name, 21)

    def deep_param(self, n):
        p = self.open(28)
        self.deep_sub(n)
        self.close(p)

    def deep_literal(self, n):
        p, lit = self.open(28), self.open(29)
        ends = ""
        for _ in range(n):
            start, end = self.r.choice([("[", "]"), ("[1,", "]"), ('{"a":', "}")])
            self.put(start)
            ends = end + ends
        self.leaf(0, self.r.choice(["1", "null", '"["', "[]", "01"]))
        self.put(ends if self.chance(0.9) else ends[1:])
        self.close(lit)
        self.close(p)

    def deep_sub(self, n):
        s = self.open(27)
        self.put("(")
        if n > 1 and self.chance(0.2):
            self.deep_sub(n - 1)
        else:
            self.leaf(21, "s")
            if n > 1:
                self.put(" ")
                if self.chance(0.3):
                    h = self.open(32)
                    self.leaf(21, "k")
                    self.put("=")
                    self.deep_param(n - 1)
                    self.close(h)
                else:
                    self.deep_param(n - 1)
        self.put(")")
        self.close(s)

    def card(self):
        self.fault = False
        sp = self.open(1)
        if self.chance(0.6):
            self.nest(self.r.choice([62, 63, 64, 65, 66]))
        else:
            x = self.open(self.r.choice([11, 12, 13, 14]))
            self.put("{{")
            n = self.r.choice([31, 32, 33, 34])
            if self.chance(0.3):
                self.deep_sub(n)
            else:
                self.leaf(21, "f")
                self.put(" ")
                self.deep_literal(n) if self.chance(0.4) else self.deep_param(n)
            self.put("}}")
            self.close(x)
        self.close(sp)
        self.s.append([0, len(self.t), len(self.t)])
        return 0, [w for s in self.s for w in s], bytes(self.t)


def deep(rng):
    while True:
        c = Deep(rng).card()
        if len(c[2]) <= 16384 and len(c[1]) <= 3 * 4096:
            return c


class Weird(Gen):
    """Any tag anywhere inside the expressions, spans that touch or end where the tag ends, and so on."""

    TEXTS = ["abc", "this", "a", "", "@", "..", "'x'", "1", "01", '"s"', "\\'", "~", " ", "é", "[1,2]", "{{", "\n"]

    def inner(self, depth, least=0):
        for _ in range(max(least, self.r.choice([0, 1, 1, 2, 3]))):
            if self.chance(0.3):
                self.put(self.r.choice(["", " ", "x"]))
            k = self.r.random()
            if k < 0.35:
                tag = self.r.choice([21, 26, 27, 28, 28, 29, 30, 31, 32, 33, 34, 35, 37, 38, 39])
            elif k < 0.9:
                tag = self.r.choice([28, 32, 33, 26, 29, 21])
                self.known(tag, depth)
                continue
            else:
                tag = self.r.randrange(41)
            sp = self.open(tag)
            if depth < 4 and self.chance(0.5):
                self.inner(depth + 1)
            if self.chance(0.7):
                self.put(self.r.choice(self.TEXTS))
            self.close(sp)

    def known(self, tag, depth):
        sp = self.open(tag)
        if tag == 28:
            if self.chance(0.2):
                self.known(28, depth + 1) if depth < 5 else None
            else:
                t = self.r.choice([26, 27, 29])
                self.known(t, depth + 1)
        elif tag == 26:
            for _ in range(self.r.choice([0, 1, 1, 2, 3])):
                self.leaf(self.r.choice([36, 37, 37, 38, 39, 39, 40, 0, 4]), self.r.choice(self.TEXTS))
        elif tag == 27:
            if self.chance(0.1):
                self.leaf(34, "~")
            self.name()
            if depth < 5:
                self.inner(depth + 1)
        elif tag == 29:
            k = self.r.random()
            if k < 0.3:
                st = self.open(30)
                self.put("'")
                self.leaf(31, self.r.choice(["a", "\\'", '"', "", "\\n", "é"]))
                self.put("'")
                self.close(st)
            elif k < 0.6:
                st = self.open(self.r.choice([30, 0, 31]))
                self.put(self.r.choice(['"a"', "1", "true", "x"]))
                self.close(st)
            else:
                self.leaf(0, self.r.choice(["1", "null", '"x"', "[]", "2e5"]))
            if self.chance(0.1):
                self.inner(5)
        elif tag == 32:
            self.leaf(self.r.choice([21, 21, 21, self.r.randrange(41)]), self.r.choice(["k", "a", "b", ""]))
            self.put("=")
            if self.chance(0.5):
                self.known(28, depth + 1)
            else:
                self.known(self.r.choice([26, 29, 27]), depth + 1)
        elif tag == 33:
            for _ in range(self.r.choice([0, 1, 1, 2, 2, 3])):
                self.leaf(self.r.choice([21, 21, self.r.randrange(41)]), self.r.choice(self.TEXTS))
        elif tag == 21:
            self.put(self.r.choice(self.TEXTS))
            if self.chance(0.1) and depth < 4:
                self.inner(depth + 1)
        self.close(sp)

    def name(self):
        k = self.r.random()
        if k < 0.6:
            self.leaf(self.r.choice([21, 22, 23, 24, 25]), self.r.choice(["if", "a", "", "é"]))
        elif k < 0.8:
            self.known(26, 1)
        elif k < 0.95:
            self.known(27, 2)
        else:
            self.leaf(self.r.randrange(41), "z")

    def tag(self, tag, name=None):
        x = self.open(tag)
        self.put(self.r.choice(["{{", ""]))
        if self.chance(0.2):
            self.leaf(34, "~")
        if tag == 10:
            self.name()
            if self.chance(0.2):
                self.leaf(34, "~")
        at = len(self.s)
        if name is not None and self.chance(0.95):
            self.leaf(self.r.choice([21, 22, 23, 24, 25]), name)
        else:
            self.name()
        nm, _ = self.name_from(at)
        self.inner(0)
        if self.chance(0.2):
            self.leaf(35, "~")
        self.put(self.r.choice(["}}", "}}", "}}", ""]))
        self.close(x)
        return nm

    def gapping(self):
        if self.chance(0.5):
            self.put(self.r.choice([" ", "\n", "\n", " \n ", "\r\n", "x", "\u00a0"]))

    def body(self, depth):
        if self.chance(0.2):
            self.leaf(self.r.choice([0, 21, 35, 40]), "")
        self.gapping() if self.chance(0.3) else None
        if self.chance(0.97):
            t = self.open(1)
        else:
            t = None
        for _ in range(self.r.choice([0, 1, 1, 2, 3])):
            self.gapping()
            tag = self.r.choice([0, 2, 2, 5, 6, 7, 8, 11, 12, 13, 14, 19, 20, self.r.randrange(41)])
            if tag in (5, 7, 8) and depth < 4:
                nm = self.tag(tag)
                self.body(depth + 1)
                if tag == 5:
                    for _ in range(self.r.choice([0, 0, 1, 2])):
                        self.gapping()
                        self.tag(self.r.choice([10, 10, 9]))
                        self.body(depth + 1)
                self.gapping()
                self.tag({5: self.r.choice([15, 15, 15, 15, 16]), 7: 17, 8: 18}[tag], nm)
            elif tag == 6:
                nm = self.tag(6)
                self.gapping()
                if self.chance(0.7):
                    self.text_span(3, self.text_pieces())
                self.gapping() if self.chance(0.2) else None
                self.tag(self.r.choice([16, 16, 16, 15]), nm)
            elif tag in (2, 3):
                self.text_span(tag, self.text_pieces())
            elif 9 <= tag <= 18:
                self.tag(tag)
            else:
                self.leaf(tag, self.r.choice(["{{!a}}", "{{!--b--}}", "c"]))
        self.gapping()
        if t is not None:
            self.close(t)

    def card(self):
        self.body(0)
        if self.chance(0.5):
            self.gapping()
            self.s.append([0, len(self.t), len(self.t)])
        return self.r.choice([0, 0, 1, 2, 3]), [w for s in self.s for w in s], bytes(self.t)


def weird(rng):
    while True:
        c = Weird(rng).card()
        if len(c[2]) <= 16384 and len(c[1]) <= 3 * 4096:
            return c


def long(rng):
    w = Writer()
    root = w.open(1)
    # few tags and a short text, few and a long one, many
    tags, quotes = rng.choice([(70, 1400), (70, 15000), (1000, 8000)])
    tags = rng.randrange(tags * 3 // 4, tags + 1)
    quotes = rng.randrange(quotes * 3 // 4, quotes + 1)
    name = rng.choice(["a", "b/c"])
    for k in range(tags):
        x = w.open(11)
        w.put("{{")
        ref = w.open(26)
        w.leaf(39, name)
        w.close(ref)
        w.put("}}")
        w.close(x)
        w.leaf(2, '"' * (quotes // tags))
    w.close(root)
    return 0, [v for s in w.s for v in s], bytes(w.t)


KINDS = {"good": good, "damaged": damaged, "weird": weird, "deep": deep, "long": long}


def main():
    kind, seed, count = sys.argv[1], int(sys.argv[2]), int(sys.argv[3])
    rng = random.Random(seed)
    for _ in range(count):
        sys.stdout.buffer.write(record(*KINDS[kind](rng)))


if __name__ == "__main__":
    main()
