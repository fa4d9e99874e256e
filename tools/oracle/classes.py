"""The classes of docs/DIFFERENCES.md that a difference can be in, a function each.

A function is given a card that one side turns away or on which the crate panics, with both answers
(compare.Difference). It says whether the card has what its class is about, by document 01's walk up to the
refused span (steps.py), and whether the crate did what the class says. But for D38 the crate may not have
stopped before the span that the port refuses.
"""
import re

from steps import ROOT, Ended, Lost, NotAllowed, end_of_list_fault, escape_fault, nesting_fault, reach

D34 = "D34 an escape inside an escape"
STRING = re.compile(rb'"(?:[^"\\]|\\.)*"?', re.S)
NUMBER = re.compile(rb"-?(\d*(?:\.\d*)?)(?:[eE][+-]?(\d*))?")


def early(options, words, text):
    """The refusal by 1 to 5, or None."""
    if options > 3:
        return 1, 0
    if len(text) > 16384:
        return 2, 0
    if len(words) % 3 or len(words) > 3 * 4096:
        return 3, 0
    try:
        text.decode()
    except UnicodeDecodeError as e:
        return 4, e.start
    boundary = lambda n: n <= len(text) and (n == len(text) or text[n] & 0xC0 != 0x80)
    for i in range(0, len(words), 3):
        tag, start, end = words[i : i + 3]
        if tag > 40 or start > end or not (boundary(start) and boundary(end)):
            return 5, i // 3
    return None


def literal_over(kept):
    """Whether a literal passes a limit somewhere, looked at without its strings."""
    bare = STRING.sub(b" ", kept)
    depth = deepest = 0
    for c in bare:
        depth += (c in b"[{") - (c in b"]}")
        deepest = max(deepest, depth)
    long_number = any(
        len(m[1].replace(b".", b"")) > 15 or len(m[2] or b"") > 2 for m in NUMBER.finditer(bare)
    )
    return deepest > 32 or long_number


class Seen:
    """A difference with the walk at the refused span. Lost, where the reasons that come before do not let it
    be refused by this number."""

    def __init__(self, d):
        self.d, self.number = d, d.number
        self.walk, self.span = reach(d.spans, d.text, d.number, d.place)
        at_end = self.span is None
        self.early_start = not at_end and self.span.start < self.walk.end
        self.fault = end_of_list_fault(self.walk) if at_end else nesting_fault(self.walk, self.span)
        if self.early_start != (d.number == 6) or d.number != 6 and (self.fault is not None) != (d.number == 7):
            raise Lost
        self.before = d.turn is not None and d.turn < self.walk.turn
        self.here = d.turn is not None and d.turn == self.walk.turn
        self.panics = d.stopped == "panic"
        self.panics_here = self.here and self.panics
        self.tree = d.crate.startswith(b"[template\n")
        self.reader = self.walk.reader()
        self.unread = None if at_end else self.why_unread()

    def why_unread(self):
        """Why 8 holds of the span's expression, or None."""
        try:
            if 5 <= self.span.tag <= 18:
                self.reader.tag(self.span)
        except (Ended, NotAllowed) as e:
            return type(e)
        return None

    def over(self):
        """Whether the refused span passes one of 12's limits."""
        opens = self.span.tag in (5, 6, 7, 8, 10) and self.walk.open_blocks() + 1 > 64
        return opens or self.reader.deepest > 32 or any(map(literal_over, self.reader.literals))

    def crate_lets_start_pass(self):
        return self.span.tag in (1, 3) or self.walk.tilde and self.span.tag != 2

    def seven(self, *faults):
        return self.number == 7 and self.fault in faults


def d13_limits(s):
    return s.number == 12 and s.over() and s.tree


def d14_12_in_place_of_invalid_param(s):
    return s.number == 12 and s.over() and s.here and s.d.error == 9


def d15_a_limit_hides_an_error(s):
    return s.number == 12 and s.over() and not s.tree


def d18_6_where_the_crate_panics(s):
    return s.number == 6 and not s.crate_lets_start_pass() and s.panics_here


def d19_7_where_the_crate_panics(s):
    return s.seven("no block", "no body", "root waits", "text left") and s.panics


def d20_8_where_the_crate_panics(s):
    placed = (s.unread == Ended) == (s.d.place == len(s.d.spans))
    return s.number == 8 and s.unread is not None and placed and s.panics_here


def d21_an_empty_escape_at_the_end_of_its_text(s):
    return s.number == 13 and escape_fault(s.walk, s.span) == "empty" and s.panics_here


def d22_starts_before_the_previous_end(s):
    return s.number == 6 and s.crate_lets_start_pass()


def d23_a_block_open_at_the_end(s):
    return s.seven("open at the end") and s.tree


def d24_tag_1_while_nothing_waits(s):
    return s.seven("nothing waits")


def d25_a_body_of_the_wrong_tag(s):
    return s.seven("wrong body")


def d26_a_gap_or_a_tag_while_a_body_is_waited_for(s):
    return s.seven("waits") and (s.panics_here or s.walk.blocks[-1].kind != ROOT)


def d27_more_in_a_raw_body(s):
    return s.seven("raw body")


def d28_tags_15_and_16_crossed(s):
    return s.seven("crossed kinds") and s.span.tag in (15, 16)


def d29_tags_17_and_18_crossed(s):
    return s.seven("crossed kinds") and s.span.tag in (17, 18)


def d30_helper_blocks_crossed_with_others(s):
    return s.seven("crossed stacks")


def d31_an_else_tag_in_another_block(s):
    return s.seven("else elsewhere")


def d32_else_tags_after_a_plain_else(s):
    return s.seven("else again")


def d33_escapes_that_the_crate_lets_pass(s):
    return s.number == 13 and escape_fault(s.walk, s.span) is not None and not s.here


def d35_7_before_8_to_11(s):
    return s.number == 7 and s.here and (s.d.error or s.panics and s.unread)


def d37_an_end_tag_of_a_block_without_a_body(s):
    return s.seven("no body") and not s.panics


def d38_an_escape_behind_another_span_of_its_text(s):
    """The one class in which the crate stops before the span that the port refuses: at the text."""
    if not (s.number == 6 and s.panics and s.d.turn == s.walk.turn - 1 and s.d.pair[0] in (2, 3)):
        return False
    _, start, end = s.d.pair
    for e in s.d.spans[s.span.number + 1 :]:
        if e.start < start or e.end > end:
            break
        if e.tag == 4 and e.start == end:
            return True
    return False


CLASSES = [
    d13_limits,
    d14_12_in_place_of_invalid_param,
    d15_a_limit_hides_an_error,
    d18_6_where_the_crate_panics,
    d20_8_where_the_crate_panics,
    d21_an_empty_escape_at_the_end_of_its_text,
    d22_starts_before_the_previous_end,
    d35_7_before_8_to_11,
    d19_7_where_the_crate_panics,
    d23_a_block_open_at_the_end,
    d24_tag_1_while_nothing_waits,
    d25_a_body_of_the_wrong_tag,
    d26_a_gap_or_a_tag_while_a_body_is_waited_for,
    d27_more_in_a_raw_body,
    d28_tags_15_and_16_crossed,
    d29_tags_17_and_18_crossed,
    d30_helper_blocks_crossed_with_others,
    d31_an_else_tag_in_another_block,
    d32_else_tags_after_a_plain_else,
    d33_escapes_that_the_crate_lets_pass,
    d37_an_end_tag_of_a_block_without_a_body,
]


def label(f):
    return f.__name__[0].upper() + f.__name__[1:].replace("_", " ")


def d5_spans_options_and_text_as_plain_numbers(d):
    """1 to 5, where the crate cannot be asked; with it D36, their place before the walk."""
    return d.crate == b"unasked\n" and early(d.options, d.words, d.text) == (d.number, d.place)


def d13_limits_before_the_walk(d):
    return d.number in (2, 3) and early(d.options, d.words, d.text) == (d.number, d.place)


def same_error(d):
    """Whether both sides refuse by the same number, at the same span and, where the crate says it, the same line
    and column, and no reason that comes before holds there."""
    if d.error is None or d.error != d.number or d.place >= len(d.spans):
        return False
    span = d.spans[d.place]
    placed = d.error_place == (b"-" if d.number == 9 else d.line_column(span.start))
    try:
        s = Seen(d)
    except Lost:
        return False
    return placed and s.here and d.pair == (span.tag, span.start, span.end)


def class_of(d):
    """The name of the class that explains the difference, or None."""
    for f in (d5_spans_options_and_text_as_plain_numbers, d13_limits_before_the_walk):
        if f(d):
            return label(f)
    if not 6 <= d.number <= 13 or d.crate == b"unasked\n":
        return None
    try:
        s = Seen(d)
    except Lost:
        return None
    possible = [d38_an_escape_behind_another_span_of_its_text] if s.before else CLASSES
    return next((label(f) for f in possible if f(s)), None)


def without_inner_escapes(card):
    """The card without the escapes that stand inside another escape."""
    options, words, text = card
    kept, last = [], 0
    for i in range(0, len(words), 3):
        tag, start, end = words[i : i + 3]
        if tag == 4:
            if kept and kept[-3] == 4 and end <= last:
                continue
            last = end
        kept += [tag, start, end]
    return options, kept, text
