#!/usr/bin/env python3
"""The stored cards of replay_cards and their answers, by document 01's model in model.py.

crates/replay_cards/stdin has each card behind a line with its length: first those of examples/, in the order of their
names, then some whose listings are as long as a buffer of the port or differ from that by a byte, then the others that
are stored there already. This writes it again, so that a new example is run by the gate, and writes
crates/replay_cards/stdout. It also holds docs/GUIDE.md to the model: each text and listing that the page
shows of an example, and each answer of its table.
"""
import os
import re

import model

ROOT = os.path.join(os.path.dirname(os.path.abspath(__file__)), "..", "..")
REPLAY = os.path.join(ROOT, "crates", "replay_cards")
EXAMPLES = os.path.join(ROOT, "examples")
GUIDE = os.path.join(ROOT, "docs", "GUIDE.md")
CARD = re.compile(rb"([0-9]{1,5})\n((?:[0-9]{1,5} [0-9]{1,5} [0-9]{1,5}\n)*)\n", re.A)
SHORT = 256
LONG = 4096
ROOM = 65536


def cards(data):
    at = 0
    while at < len(data):
        end = data.index(b"\n", at)
        length = int(data[at:end])
        yield data[end + 1 : end + 1 + length]
        at = end + 1 + length


def listed(card, room=ROOM):
    m = CARD.match(card)
    if not m or len(card) > 65536:
        return b"refused 15 at 0\n"
    return model.answer(int(m[1]), [int(w) for w in m[2].split()], card[m.end() :], room)


def shown(listing):
    if len(listing) <= LONG:
        return listing
    total = 0
    for byte in listing:
        total = (total * 31 + byte) % 1000003
    return b"a listing of %d bytes with sum %d\n" % (len(listing), total)


def answer(card):
    out = listed(card)
    if out.startswith(b"refused 14 "):
        return out + shown(listed(card, 4 * ROOM))
    # a short listing is run again with every room from 0 to 3 past it
    rooms = b"rooms %d\n" % (len(out) + 4) if not out.startswith(b"refused") and len(out) <= SHORT else b""
    return shown(out) + rooms


def with_listing(length, expressions):
    """a card with so many expressions, each named by most of the text, and a listing of this length"""

    def card(name, more):
        spans = [(1, 0, 0)] + expressions * [(11, 0, 0), (21, 0, name)]
        return b"0\n" + b"".join(b"%d %d %d\n" % span for span in spans) + b"\n" + b"x" * name + b"y" * more

    # a byte of the name is listed with every expression and in the text behind them, a byte more only there
    name, more = divmod(length - len(listed(card(0, 1), length)) + 1, expressions + 1)
    made = card(name, more)
    assert len(listed(made, length)) == length, length
    return made


def edges():
    """few spans and a short text, few spans and a long one, many spans"""
    for buffer, expressions in (16384, 40), (65536, 20), (131072, 200):
        for length in buffer - 1, buffer, buffer + 1:
            yield with_listing(length, expressions)


def examples():
    for name in sorted(os.listdir(EXAMPLES)):
        with open(os.path.join(EXAMPLES, name), "rb") as f:
            yield name, f.read()


def check_guide(cards_by_name):
    with open(GUIDE, encoding="utf-8") as f:
        page = f.read()
    shown = re.findall(r"`examples/([a-z-]+\.card)`[^`]*```\n(.*?)```[^`]*```\n(.*?)```", page, re.S)
    rows = re.findall(r"`(refused-[a-z0-9-]+\.card)` \| `(refused [0-9]+ at [0-9]+)` \|", page)
    for name, text, listing in shown:
        card = cards_by_name[name]
        own = card[CARD.match(card).end() :].decode().replace(" ", "·")
        assert text == own + ("" if own.endswith("\n") else "\n"), name
        assert listing == listed(card).decode(), name
    for name, refusal in rows:
        assert refusal + "\n" == listed(cards_by_name[name]).decode(), name
    assert {name for name, _, _ in shown} | {name for name, _ in rows} <= set(cards_by_name)
    return len(shown), len(rows)


def main():
    first = dict(examples())
    made = list(first.values()) + list(edges())
    with open(os.path.join(REPLAY, "stdin"), "rb") as f:
        every = made + [card for card in cards(f.read()) if card not in made]
    with open(os.path.join(REPLAY, "stdin"), "wb") as f:
        f.write(b"".join(b"%d\n" % len(card) + card for card in every))
    out = b"".join(b"card %d\n" % k + answer(card) for k, card in enumerate(every))
    with open(os.path.join(REPLAY, "stdout"), "wb") as f:
        f.write(out)
    shown, rows = check_guide(first)
    print(f"{len(every)} cards, {len(first)} of them examples; the guide shows {shown} listings and {rows} refusals")


if __name__ == "__main__":
    main()
