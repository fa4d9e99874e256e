"""Document 01 in plain Python: the answer to options, words, text and room.

Shares nothing with the port but document 01: bodies are lists that grow, a text is trimmed when a tag trims it, a block is written when it
closes, lists of spans are cut, keys are a dictionary that is sorted. Expressions are read by tools/listing's reader, literals by
tools/expressions'.
"""
import importlib.util
import os

HERE = os.path.dirname(os.path.abspath(__file__))


def load(name):
    spec = importlib.util.spec_from_file_location(name, os.path.join(HERE, "..", name, "make.py"))
    module = importlib.util.module_from_spec(spec)
    spec.loader.exec_module(module)
    return module


listing = load("listing")
expressions = listing.expressions
quoted = listing.quoted
POINTS = [9, 10, 11, 12, 13, 32, 0x85, 0xA0, 0x1680, *range(0x2000, 0x200B), 0x2028, 0x2029, 0x202F, 0x205F, 0x3000]
WHITE = "".join(map(chr, POINTS))
NUMBERS = {" ended": 8, " not-allowed": 8, " invalid": 9, " over": 12}
OPENS = {5: "helper", 6: "raw", 7: "decorator", 8: "partial"}
CLOSES = {15: "helper", 16: "raw", 17: "decorator", 18: "partial"}
WORDS = {11: b"expr", 12: b"html", 13: b"decor", 14: b"partial", "decorator": b"decor-block", "partial": b"partial-block"}


class Refused(Exception):
    pass


# ---- text rules


def line_trimmed(text):
    text = text.lstrip(b" \t")
    return text[2:] if text.startswith(b"\r\n") else text[1:] if text.startswith(b"\n") else text


def ends_with_empty_line(text):
    text = text.rstrip(b" \t")
    return not text or text[-1:] in (b"\n", b"\r")


def starts_with_empty_line(text):
    return text.lstrip(b" \t")[:1] in (b"\n", b"\r")


def place(text, offset):
    before = text[:offset]
    return b"%d:%d" % (1 + before.count(b"\n"), 1 + len(before[before.rfind(b"\n") + 1 :].decode()))


def comment(text, tag):
    opens, closes = (b"{{!", b"}}") if tag == 19 else (b"{{!--", b"--}}")
    while text.startswith(opens):
        text = text[len(opens) :]
    while text.endswith(closes):
        text = text[: -len(closes)]
    return text


# ---- expressions


class Read(listing.Lister):
    def named(self, spans):
        """the name that an expression gives, from its first spans: None where it has none"""
        s = self.tilde(spans)[1][0]
        return self.own(s.start, s.end) if s.tag in (21, 22, 23, 24, 25, 26) else None

    def tag(self, s, rest):
        """left tilde, name, call, block parameters, right tilde, and the spans that are left"""
        before = False
        if s.tag == 10:
            before, rest = self.tilde(rest)
            rest = self.name(rest, expressions.DEPTH)[1]
        left = self.tilde(rest)[0]
        (call, block), after = self.children(rest, s.end, expressions.DEPTH)
        return before or left, self.named(rest), call, block, self.right(rest, s.end), after

    def right(self, rest, limit):
        """tag 35 is among the parts"""
        rest = self.name(self.tilde(rest)[1], expressions.DEPTH)[1]
        found = False
        while rest and rest[0].end < limit:
            s, rest = rest[0], rest[1:]
            if s.tag == 28:
                rest = self.param(rest, expressions.DEPTH)[1]
            elif s.tag == 32:
                rest = self.hash(rest, expressions.DEPTH)[1]
            elif s.tag == 33:
                rest = self.block(rest, s.end)[1]
            elif s.tag == 35:
                found = True
        return found


# ---- the walk


class Block:
    def __init__(self, kind, at=b"", name=None, head=None):
        self.kind, self.at, self.name = kind, at, name
        self.stage, self.body, self.plain_else = "waiting", [], False
        # heads (children, indent mark) and the bodies that are complete
        self.heads, self.bodies = [head] if head else [], []

    def next_body(self):
        self.bodies.append(self.body)
        self.body, self.stage = [], "waiting"


def forms(body):
    return b"".join(b"[text " + e[0] + b" " + quoted(e[1]) + b"]\n" if isinstance(e, list) else e for e in body)


def block_form(b):
    """each else-if is a block in the else of the one before; a plain else is innermost"""
    bodies = b.bodies + [b.body]
    inside = b"[else\n" + forms(bodies[-1]) + b"]\n" if b.plain_else else b""
    chain = b"%d" % (len(b.heads) > 1)
    for i in reversed(range(len(b.heads))):
        children, mark = b.heads[i]
        at = b"-" if i else b.at
        form = b"[block " + at + b" " + chain + b" " + mark + b"\n" + children + b"[body\n" + forms(bodies[i]) + b"]\n" + inside + b"]\n"
        inside = b"[else\n" + form + b"]\n"
    return form


class Walk:
    def __init__(self, text, words, options):
        self.text, self.prevent_indent, self.is_partial = text, options & 1, options & 2
        self.all = [expressions.Span(k, *words[3 * k : 3 * k + 3]) for k in range(len(words) // 3)]
        self.open = [Block("root")]
        self.end, self.tilde, self.line = None, False, False

    def nests(self, s, gap):
        top, filling = self.open[-1], self.open[-1].stage == "filling"
        if s.tag == 0 or s.tag > 20:
            return filling or not gap
        if s.tag == 1:
            return top.stage == "waiting" and top.kind != "raw"
        if s.tag == 3:
            return top.stage == "waiting" and top.kind == "raw"
        if s.tag in (9, 10):
            return filling and top.kind == "helper" and not top.plain_else
        if s.tag in CLOSES:
            ends = filling or (top.stage == "waiting" and top.kind == "raw" and gap) or (top.stage == "full" and not gap)
            return top.kind == CLOSES[s.tag] and ends
        return filling

    def read(self, s, rest):
        try:
            x = Read(self.text, True).tag(s, rest)
        except expressions.Fault as f:
            raise Refused(NUMBERS[f.args[0]], len(self.all) if f.args[0] == " ended" else s.number)
        if s.tag in OPENS or s.tag == 10:
            if sum(len(b.heads) for b in self.open) >= 64:
                raise Refused(12, s.number)
        top = self.open[-1]
        if s.tag in (15, 16) and x[1] != top.name:
            raise Refused(10, s.number)
        if s.tag in (17, 18) and x[1] != top.name and x[1] != b"":
            raise Refused(11, s.number)
        return x

    def raw_string(self, s, previous):
        start = previous if s.tag == 2 else s.start
        least, removed = start, set()
        for e in self.all[s.number + 1 :]:
            if e.tag != 4 or e.end > s.end:
                break
            if e.start == e.end or self.text[e.start : e.start + 1] != b"\\" or e.start < least:
                raise Refused(13, s.number)
            least = e.start + 1
            removed.add(e.start)
        text = bytes(self.text[i] for i in range(start, s.end) if i not in removed)
        if self.tilde:
            return text.decode().lstrip(WHITE).encode()
        return line_trimmed(text) if self.line else text

    def trim_last(self, trim):
        body = self.open[-1].body
        if body and isinstance(body[-1], list):
            body[-1][1] = trim(body[-1][1])

    def standalone(self, s):
        after = self.text[s.end :]
        follows = starts_with_empty_line(after) or (not after and not self.is_partial)
        return follows and ends_with_empty_line(self.text[: s.start])

    def step(self, s, rest):
        previous, top = self.end or 0, self.open[-1]
        if s.start < previous:
            raise Refused(6, s.number)
        gap = s.start != previous and s.tag not in (1, 2, 3) and not self.tilde
        if not self.nests(s, gap):
            raise Refused(7, s.number)
        left, name, call, block, right, rest = self.read(s, rest) if 5 <= s.tag <= 18 else (False, None, b"", b"", self.tilde, rest)
        raw = self.raw_string(s, previous) if s.tag in (2, 3) else None
        at = place(self.text, s.start)
        if gap:
            between = self.text[previous : s.start]
            top.body.append([at, line_trimmed(between) if self.line else between])
            self.line = False
            top.stage = "full" if top.stage == "waiting" else top.stage
        if left:
            self.trim_last(lambda t: t.decode().rstrip(WHITE).encode())
        mark = b"0"
        if 5 <= s.tag <= 10 or 13 <= s.tag <= 20:
            self.line = self.standalone(s)
            if self.line and not (s.tag == 14 and self.prevent_indent):
                self.trim_last(lambda t: t.rstrip(b" \t"))
            mark = b"%d" % (self.line and not left)
        self.tilde = right
        self.effect(s, top, at, mark, left, name, call, block, raw)
        if s.tag != 1:
            self.end = s.end
        return rest

    def effect(self, s, top, at, mark, left, name, call, block, raw):
        if s.tag == 1:
            top.stage = "filling"
        elif s.tag in (2, 3):
            top.body.append([at, raw])
            self.line = self.line and s.tag == 3
            top.stage = "full" if s.tag == 3 else top.stage
        elif s.tag in (19, 20):
            top.body.append(b"[comment " + at + b" " + quoted(comment(self.text[s.start : s.end], s.tag)) + b"]\n")
        elif s.tag in (11, 12):
            top.body.append(b"[" + WORDS[s.tag] + b" " + at + b"\n" + call + block + b"]\n")
        elif s.tag in (13, 14):
            before = self.text[: s.start]
            blanks = before[len(before.rstrip(b" \t")) :]
            kept = s.tag == 14 and blanks and not self.prevent_indent and not left
            indent = quoted(blanks) if kept else b"-"
            top.body.append(b"[" + WORDS[s.tag] + b" " + at + b" " + mark + b" " + indent + b"\n" + call + b"]\n")
        elif s.tag in OPENS:
            self.open.append(Block(OPENS[s.tag], at, name, (call + block if s.tag in (5, 6) else call, mark)))
        elif s.tag == 10:
            top.next_body()
            top.heads.append((call + block, mark))
        elif s.tag == 9:
            top.next_body()
            top.plain_else = True
        elif s.tag in CLOSES:
            self.close(self.open.pop())

    def close(self, b):
        if b.kind in ("helper", "raw"):
            form = block_form(b)
        else:
            children, mark = b.heads[0]
            form = b"[" + WORDS[b.kind] + b" " + b.at + b" " + mark + b" -\n" + children + b"[body\n" + forms(b.body) + b"]\n]\n"
        self.open[-1].body.append(form)
        self.open[-1].stage = "filling"

    def run(self):
        rest = [s for s in self.all if s.tag != 4]
        while rest:
            rest = self.step(rest[0], rest[1:])
        root = self.open[0]
        if len(self.open) > 1 or root.stage != "filling" or (self.end is None and self.text):
            raise Refused(7, len(self.all))
        end = self.end or 0
        if end < len(self.text):
            root.body.append([place(self.text, end), self.text[end:]])
        return b"[template\n" + forms(root.body) + b"]\n"


def checked(options, words, text):
    """1 to 5"""
    if options > 3:
        raise Refused(1, 0)
    if len(text) > 16384:
        raise Refused(2, 0)
    if len(words) % 3 or len(words) // 3 > 4096:
        raise Refused(3, 0)
    try:
        text.decode()
    except UnicodeDecodeError as e:
        raise Refused(4, e.start)
    for k in range(len(words) // 3):
        tag, start, end = words[3 * k : 3 * k + 3]
        inside = [n for n in (start, end) if n < len(text) and 0x80 <= text[n] < 0xC0]
        if tag > 40 or start > end or end > len(text) or inside:
            raise Refused(5, k)


def answer(options, words, text, room=65536):
    """the listing, or `refused N at P`"""
    try:
        checked(options, words, text)
        out = Walk(text, words, options).run()
        if len(out) > room:
            raise Refused(14, len(out))
        return out
    except Refused as r:
        return b"refused %d at %d\n" % r.args
