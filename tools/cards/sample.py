#!/usr/bin/env python3
"""Compares the port with the model of document 01 in model.py.

    sample.py --port COMMAND [--keep FOLDER] < RECORDS

RECORDS and the port's answers have the forms of tools/oracle/README.md. The model is written from document 01 and
shares nothing with the port, so number, place and every byte of a listing have to be the same. What differs is printed,
its record is kept in FOLDER, and the exit status is then 1.
"""
import argparse
import collections
import os
import shlex
import struct
import sys

import model

sys.path.append(os.path.join(os.path.dirname(os.path.abspath(__file__)), "..", "oracle"))
from compare import run  # noqa: E402

BATCH = 5000


def cards(stream):
    """Options, words, text and the record itself."""
    while head := stream.read(12):
        options, count, length = struct.unpack("<3I", head)
        body = stream.read(4 * count + length)
        yield options, list(struct.unpack_from("<%dI" % count, body)), body[4 * count :], head + body


def kind(answer):
    return answer.split(b" at ")[0].decode() if answer.startswith(b"refused") else "listed"


def main():
    a = argparse.ArgumentParser(description=__doc__.split("\n")[0])
    a.add_argument("--port", required=True)
    a.add_argument("--keep")
    args = a.parse_args()
    seen, wrong, stream = collections.Counter(), 0, cards(sys.stdin.buffer)
    while batch := [c for _, c in zip(range(BATCH), stream)]:
        given = run(shlex.split(args.port), b"".join(c[3] for c in batch), len(batch))
        for (options, words, text, record), port in zip(batch, given):
            expected = model.answer(options, words, text, sys.maxsize)
            seen[kind(expected)] += 1
            if port == expected:
                continue
            wrong += 1
            if args.keep:
                with open(os.path.join(args.keep, "%d.record" % wrong), "wb") as f:
                    f.write(record)
            print("options %d, %d words, %d bytes\n  model: %r\n  port:  %r" % (options, len(words), len(text), expected[:200], port[:200]))
    print("%d cards, %d answers differ" % (sum(seen.values()), wrong))
    for k, n in sorted(seen.items(), key=lambda x: (len(x[0]), x[0])):
        print("%9d  %s" % (n, k))
    sys.exit(1 if wrong else 0)


if __name__ == "__main__":
    main()
