"""Document 01's walk up to one span: what is open there, what waits, which marks are set.

Made for telling why a card was turned away, not for answering it: no element is built and no text is
trimmed. Shares nothing with the port.
"""
from collections import namedtuple

Span = namedtuple("Span", "number tag start end")
ENDS = {15: 5, 16: 6, 17: 7, 18: 8}
ROOT = 0


class Ended(Exception):
    """The list ends inside an expression."""


class NotAllowed(Exception):
    """A tag is not allowed where it stands in an expression."""


class Lost(Exception):
    """The walk does not come to the place that was named."""


class Reader:
    """Document 01's readers, over the spans without the escapes, from a cursor."""

    def __init__(self, spans, text, at):
        self.spans, self.text, self.at = spans, text, at
        self.literals, self.deepest = [], 0

    def peek(self):
        return self.spans[self.at] if self.at < len(self.spans) else None

    def take(self):
        s = self.peek()
        if s is None:
            raise Ended
        self.at += 1
        return s

    def within(self, end):
        s = self.peek()
        return s is not None and s.end <= end

    def tilde(self):
        s = self.peek()
        if s is None:
            raise Ended
        if s.tag == 34:
            self.at += 1
        return s.tag == 34

    def path(self, s):
        while self.within(s.end):
            self.at += 1

    def subexpression(self, s, depth):
        self.deepest = max(self.deepest, depth + 1)
        self.expression(s.end, depth + 1)

    def name(self, depth):
        s = self.take()
        if s.tag == 26:
            self.path(s)
        elif s.tag == 27:
            self.subexpression(s, depth)
        elif not 21 <= s.tag <= 25:
            raise NotAllowed

    def literal(self, s):
        kept = self.text[s.start : s.end]
        if self.take().tag == 30:
            inner = self.peek()
            if inner is None:
                raise Ended
            if inner.tag == 31:
                self.at += 1
                plain = self.text[inner.start : inner.end].replace(b"\\'", b"'").replace(b'"', b'\\"')
                kept = b'"' + plain + b'"'
        self.literals.append(kept)

    def parameter(self, depth):
        s = self.take()
        if s.tag == 28:
            s = self.take()
        if s.tag == 26:
            self.path(s)
        elif s.tag == 27:
            self.subexpression(s, depth)
        elif s.tag == 29:
            self.literal(s)
        else:
            raise NotAllowed
        while self.within(s.end):
            self.at += 1

    def expression(self, end, depth=0):
        """Whether it has a right tilde."""
        self.tilde()
        self.name(depth)
        right = False
        while self.peek() is not None and self.peek().end < end:
            s = self.take()
            if s.tag == 28:
                self.parameter(depth)
            elif s.tag == 32:
                self.take()
                self.parameter(depth)
            elif s.tag == 33:
                self.take()
                if self.within(s.end):
                    self.at += 1
            elif s.tag == 35:
                right = True
        return right

    def tag(self, s):
        """The expression of a tag 5 to 18."""
        if s.tag == 10:
            self.tilde()
            self.name(0)
        return self.expression(s.end)


class Block:
    def __init__(self, kind):
        self.kind = kind  # the opening tag, or ROOT
        self.body = "waits"  # then "open", or "full" for a raw body
        self.plain_else = False
        self.else_ifs = 0


class Walk:
    def __init__(self, spans, text):
        self.all, self.text = spans, text
        self.spans = [s for s in spans if s.tag != 4]
        self.at = self.turn = self.end = 0
        self.came = self.tilde = False
        self.blocks = [Block(ROOT)]

    def peek(self):
        return self.spans[self.at] if self.at < len(self.spans) else None

    def reader(self):
        return Reader(self.spans, self.text, self.at + 1)

    def gap(self, s):
        """Whether a kept gap stands before the span."""
        return s.start != self.end and s.tag not in (1, 2, 3) and not self.tilde

    def open_blocks(self):
        return sum(1 + b.else_ifs for b in self.blocks[1:])

    def step(self):
        """Past the span that is next."""
        s, top = self.peek(), self.blocks[-1]
        if s.start < self.end or nesting_fault(self, s):
            raise Lost
        reader, right = self.reader(), self.tilde
        if 5 <= s.tag <= 18:
            right = reader.tag(s)
        if s.tag == 1:
            top.body = "open"
        elif s.tag == 3:
            top.body = "full"
        elif 5 <= s.tag <= 8:
            self.blocks.append(Block(s.tag))
        elif s.tag in (9, 10):
            top.plain_else, top.else_ifs = s.tag == 9, top.else_ifs + (s.tag == 10)
            top.body = "waits"
        elif s.tag in ENDS:
            self.blocks.pop()
        if s.tag != 1:
            self.end, self.came = s.end, True
        self.at, self.tilde, self.turn = reader.at, right, self.turn + 1


def nesting_fault(w, s):
    """Why document 01's block record has no place for the span, or None."""
    top, gap = w.blocks[-1], w.gap(s)
    skipped = s.tag == 0 or s.tag > 20
    if top.body == "waits":
        if s.tag in (1, 3):
            return None if (s.tag == 3) == (top.kind == 6) else "wrong body"
        if skipped:
            return "waits" if gap else None
        if ENDS.get(s.tag) == top.kind:
            return None if s.tag == 16 and gap else "no body"
        return "waits"
    if s.tag in (1, 3):
        return "nothing waits"
    if top.body == "full" and (gap or not skipped and s.tag not in ENDS):
        return "raw body"
    if s.tag in ENDS:
        return end_fault(w, ENDS[s.tag])
    if s.tag in (9, 10):
        if top.kind == 5:
            return "else again" if top.plain_else else None
        return "else elsewhere" if any(b.kind in (5, 6) for b in w.blocks) else "no block"
    return None


def end_fault(w, kind):
    """The same for an end tag of a block that this tag opens."""
    if w.blocks[-1].kind == kind:
        return None
    # the crate keeps helper and raw blocks on one stack, decorator and partial blocks on another
    pair = (5, 6) if kind in (5, 6) else (7, 8)
    if w.blocks[-1].kind in pair:
        return "crossed kinds"
    return "crossed stacks" if any(b.kind in pair for b in w.blocks) else "no block"


def end_of_list_fault(w):
    if w.blocks[0].body == "waits":
        return "root waits"
    if len(w.blocks) > 1:
        return "open at the end"
    return "text left" if not w.came and w.text else None


def reach(spans, text, number, place):
    """The walk where this refusal stands, and its span, or None where the list is at its end."""
    w = Walk(spans, text)
    while w.peek() is not None and w.peek().number != place:
        try:
            w.step()
        except Ended:
            if number == 8 and place == len(spans):
                return w, w.peek()
            raise Lost
        except NotAllowed:
            raise Lost
    if w.peek() is None and place != len(spans):
        raise Lost
    return w, w.peek()


def taken_escapes(w, s):
    """The escapes that a text takes."""
    taken = []
    for e in w.all[s.number + 1 :]:
        if e.tag != 4 or e.end > s.end:
            break
        taken.append(e)
    return taken


def escape_fault(w, s):
    """Why 13 holds of a text, or None."""
    last = (w.end if s.tag == 2 else s.start) - 1
    for e in taken_escapes(w, s):
        if e.start == e.end:
            return "empty"
        if w.text[e.start : e.start + 1] != b"\\":
            return "no backslash"
        if e.start <= last:
            return "not after the last"
        last = e.start
    return None
