#!/usr/bin/env python3
"""Tries each wrong program of the must-fail edit files by itself.

A file of crates/NAME/must-fail may hold several wrong programs, since each file costs a check of its
crate in the gate; there the check refuses the file if it refuses one of them. This script copies the
repository to a temporary folder and tries each wrong program alone.

    tools/edits/singly.py NAME...          by `rt must-fail`, the verdict: over an hour for all crates
    tools/edits/singly.py --dev NAME...    by `rt check`: seconds for each, and it prints the first error

Without a name every crate is tried.
"""
import pathlib
import re
import shutil
import subprocess
import sys
import tempfile

ROOT = pathlib.Path(__file__).resolve().parents[2]


def programs(path):
    """The wrong programs of an edit file: stretches between empty lines; `file:` holds on."""
    where = None
    for block in path.read_text().strip("\n").split("\n\n"):
        lines = block.split("\n")
        files = [line for line in lines if line.startswith("file: ")]
        where = files[0] if files else where
        rest = [line for line in lines if not line.startswith("file: ")]
        yield "\n".join([where] + rest) + "\n"


def by_must_fail(copy, names):
    """Each wrong program in a file of its own."""
    for name in names:
        edits = copy / "crates" / name / "must-fail"
        for path in sorted(edits.glob("*.edit")):
            for k, program in enumerate(programs(path)):
                (edits / f"{path.stem}-{k}.edit").write_text(program)
    for path in (ROOT / "crates").glob("*/must-fail/*.edit"):
        (copy / path.relative_to(ROOT)).unlink()
    return subprocess.run(["rt", "must-fail", *names], cwd=copy).returncode


def dev(copy, name):
    """What `rt check` says of a crate: its first error, and nothing where it is proved. A proof file that
    names what the edit took away says nothing of the contract, so such an error comes last."""
    ran = subprocess.run(["rt", "check"], cwd=copy / "crates" / name, capture_output=True, text=True)
    lines = (ran.stdout + ran.stderr).split("\n")
    errors = [line for line in lines if ": error" in line or "it is not proved that" in line]
    errors.sort(key=lambda line: bool(re.search(r"has no `|has no field|declarations? that depend", line)))
    return None if ran.returncode == 0 else (errors or lines)[0]


def by_dev(copy, names):
    """Each wrong program put into the crate, and taken out again. A further pair of a program applies to what
    the earlier ones made."""
    missed = 0
    for name in names:
        crate = copy / "crates" / name
        if dev(copy, name):
            sys.exit(f"{name} is not proved as it is")
        for path in sorted((crate / "must-fail").glob("*.edit")):
            for program in programs(path):
                where, olds, news = (re.findall(rf"^{key}: (.*)$", program, re.M) for key in ("file", "old", "new"))
                file = crate / where[0]
                right = wrong = file.read_text()
                for old, new in zip(olds, news, strict=True):
                    wrong = wrong.replace(old, new)
                file.write_text(wrong)
                error = dev(copy, name)
                file.write_text(right)
                missed += error is None
                texts = ", ".join(f"{old.strip()} -> {new.strip()}" for old, new in zip(olds, news))
                print(f"{name}: {texts}\n    {(error or 'NOT REFUSED')[:300]}", flush=True)
    return 1 if missed else 0


def main():
    words = sys.argv[1:]
    quick = words[:1] == ["--dev"]
    with tempfile.TemporaryDirectory() as folder:
        copy = pathlib.Path(folder) / "repository"
        shutil.copytree(ROOT, copy, ignore=shutil.ignore_patterns(".git", "out"))
        wanted = words[quick:] or [p.name for p in sorted((copy / "crates").iterdir())]
        names = [n for n in wanted if (copy / "crates" / n / "must-fail").is_dir()]
        return (by_dev if quick else by_must_fail)(copy, names)


if __name__ == "__main__":
    sys.exit(main())
