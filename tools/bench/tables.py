#!/usr/bin/env python3
"""Tables for docs/BENCHMARKS.md, from several runs of the benchmark.

    tables.py FILE..

Each file has what `bench` printed in one run, the tables of its modes one after another. A figure is the least of all
runs: on a machine that others use, what slows one card down in a run lasts longer than all samples of it.
"""
import re
import sys

# where the times stand in a line, by the first word of the table's head
TIMES = {"card": range(4, 9), "first": range(1, 7), "worst": range(5, 6)}

CARDS = ["card", "text, bytes", "spans", "listing, bytes"]
CRATES = ["crate, tree", "crate, listing", "fast, tree", "fast, listing"]
FIRST = ["crate, first", "later", "fast, first", "later", "port, first", "later"]

SERIES = {
    "text": "text",
    "expressions": "spans, on one line",
    "expressions-in-text": "spans, on a line each",
    "keys": "keys of one expression",
    "blocks-deep": "blocks inside one another",
    "subexpressions-deep": "subexpressions around a literal of 8,000 bytes",
    "escapes": "escapes of one text",
    "blank-tags": "tags in 16,384 blanks",
    "blank-bytes": "blanks around 4,080 tags",
    "blank-lines": "lines of blanks with a comment",
    "literals": "literals of 8,000 bytes over one another",
    "literals-deep": "the same, 8 inside subexpressions",
    "long-keys": "keys that begin alike for 8,000 bytes",
}


def read(path):
    """The lines of a run: for each mode, by the card's name, its cells."""
    run, rows = {}, None
    with open(path) as f:
        for cells in map(str.split, f):
            if cells and cells[0] in TIMES:
                rows = run.setdefault(cells[0], {})
            elif cells:
                rows[cells[0]] = cells
    return run


def figures(run):
    """Every time of a run, under its mode, card and column; `-` is none."""
    return {
        (mode, name, column): float(cells[column])
        for mode, rows in run.items()
        for name, cells in rows.items()
        for column in TIMES[mode]
        if cells[column] != "-"
    }


def least(runs):
    """The lines with the least of each time, and how far each run is above these on average, in percent."""
    all_figures = [figures(r) for r in runs]
    if any(f.keys() != all_figures[0].keys() for f in all_figures):
        sys.exit("the runs are not of the same cards")
    best = {k: min(f[k] for f in all_figures) for k in all_figures[0]}
    lines = {
        mode: {
            name: [str(best.get((mode, name, column), cell)) for column, cell in enumerate(cells)]
            for name, cells in rows.items()
        }
        for mode, rows in runs[0].items()
    }
    return lines, [100 * (sum(f[k] / best[k] for k in f) / len(f) - 1) for f in all_figures]


def shown(time):
    """Thousands separated; one decimal below 100, none above."""
    if time == "-":
        return time
    return format(float(time), ".1f" if round(float(time), 1) < 100 else ",.0f")


def table(head, rows):
    print("\n| %s |" % " | ".join(head))
    print("|" + "-|" * len(head))
    for row in rows:
        print("| %s |" % " | ".join(row))


def timed(cells):
    """A line of the first mode, its times as they are shown."""
    return cells[:4] + [shown(t) for t in cells[4:]]


def cards(rows):
    """The cards by what they are: ribbons and texts, refusals, series."""
    names = {"card": [], "kind": [], "refused": [], **{s: [] for s in SERIES}}
    for name in rows:
        kind = re.sub("-[0-9]+$", "", name)
        if kind not in SERIES:
            kind = {"card": "card", "text": "kind", "refused": "refused"}[name.split("-")[0]]
        names[kind].append(name)
    head = CARDS + CRATES + ["port"]
    for kind in ("card", "kind"):
        table(head, [timed(rows[n]) for n in names[kind]])
    # a refusal has no listing: of the crate's two times, which are of the same job, one is left out
    refused = [[c[0], c[2], c[5], c[7], c[8]] for c in (timed(rows[n]) for n in names["refused"])]
    table(["card", "spans", "crate", "fast", "port"], refused)
    series = [
        [title if n == names[s][0] else "", n, rows[n][2]] + timed(rows[n])[4:]
        for s, title in SERIES.items()
        for n in names[s]
    ]
    table(["series", "card", "spans"] + CRATES + ["port"], series)


def first(rows):
    table(["card"] + FIRST, [c[:1] + [shown(t) for t in c[1:]] for c in rows.values()])


def worst(rows):
    head = ["card", "text, bytes", "spans", "answer", "listing, bytes", "milliseconds"]
    table(head, [c[:5] + [shown(c[5])] for c in rows.values()])


def behind(runs, lines):
    """Where the port takes longer than a listing of the crate, by the least of each or in a single run."""
    for column, side in ((5, "default"), (7, "fast-line-col")):
        print("\nPort behind the crate with %s (card, its time in parts of the crate's, in how many runs):" % side)
        for name, cells in lines["card"].items():
            asked = [r["card"][name] for r in runs if "-" not in (r["card"][name][column], r["card"][name][8])]
            slower = sum(float(c[column]) < float(c[8]) for c in asked)
            if slower:
                print("%s %.2f %d of %d" % (name, float(cells[8]) / float(cells[column]), slower, len(asked)))


def main():
    runs = [read(p) for p in sys.argv[1:]]
    lines, far = least(runs)
    print("%d runs: %s percent above the least of each figure" % (len(runs), ", ".join("%.1f" % d for d in sorted(far))))
    for mode, write in (("card", cards), ("first", first), ("worst", worst)):
        if mode in lines:
            write(lines[mode])
    if "card" in lines:
        behind(runs, lines)


if __name__ == "__main__":
    main()
