#!/usr/bin/env python3
"""Shows what the compiler refuses of a program that uses a plan: a call after the close, and a report due that is let go.

    python3 tools/compiler_refuses.py

A must-fail edit has to reach the prover, and what the compiler refuses does not. So each edit here is made in a copy of the
repository, and the program `season` is built there with no proofs. The build has to end with the error that the edit names,
at the file that it changes; and the copy without an edit has to build. It ends with status 1 otherwise.
"""
import pathlib
import shutil
import subprocess
import sys
import tempfile

TOP = pathlib.Path(__file__).resolve().parent.parent
PROGRAM = "season"
FILE = "src/settling.rt"

# What is kept of a plan, taken apart so that calls can be made on it.
APART = ("let Standing { plan, memory } = standing;", "let Standing { mut plan, mut memory } = standing;")
CLOSED = "let due = plan.close();"
TABLES = (
    "let mut tables = plan::Tables { series: memory.series.as_mut_slice(), faults: memory.faults.as_mut_slice(), "
    "queue: memory.queue.as_mut_slice() };"
)
SHELF = "&crate::shelf::SHELF"

# For each edit: what it does, the error, and the texts that it changes, each of which stands in the file once.
EDITS = [
    ("draws after the close", "borrow-e0382", [APART, (CLOSED, f"{CLOSED} {TABLES} let _ = plan.draw({SHELF}, &mut tables);")]),
    ("seeks after the close", "borrow-e0382", [APART, (CLOSED, f"{CLOSED} {TABLES} let _ = plan.seek(&tables, 735000);")]),
    ("loads after the close", "borrow-e0382", [APART, (CLOSED, f"{CLOSED} {TABLES} let _ = plan.load({SHELF}, &mut tables, b\"\");")]),
    ("leaves a report due unsettled", "linear-value-let-go", [("        due.waive();\n", "")]),
]


def edited(text, pairs):
    """The text with each change made."""
    for old, new in pairs:
        if text.count(old) != 1:
            sys.exit(f"{FILE}: not there once: {old}")
        text = text.replace(old, new)
    return text


def built(pairs):
    """What a build of the program with these changes says, and whether it ran."""
    with tempfile.TemporaryDirectory() as room:
        copy = pathlib.Path(room) / "copy"
        shutil.copytree(TOP, copy, ignore=shutil.ignore_patterns("out", ".git", "target", "must-fail"))
        program = copy / "crates" / PROGRAM
        file = program / FILE
        file.write_text(edited(file.read_text(encoding="utf-8"), pairs), encoding="utf-8")
        ran = subprocess.run(["rt", "try"], cwd=program, stdin=subprocess.DEVNULL, capture_output=True, text=True)
        return ran.stdout + ran.stderr, ran.returncode == 0


def main():
    said, ran = built([])
    if not ran:
        sys.exit(f"the program does not build as it is:\n{said}")
    wrong = 0
    for does, error, pairs in EDITS:
        said, ran = built(pairs)
        refused = not ran and any(FILE in line and f"error[{error}]" in line for line in said.split("\n"))
        print(f"compiler_refuses: a program that {does}: " + (f"refused, {error}" if refused else f"NOT REFUSED\n{said}"))
        wrong += not refused
    sys.exit(wrong > 0)


if __name__ == "__main__":
    main()
