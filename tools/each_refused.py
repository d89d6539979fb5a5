#!/usr/bin/env python3
"""Tries must-fail edits, and says of each function that they change whether the prover refuses it for itself.

    python3 tools/each_refused.py CRATE [LABEL..]

An edit may change several functions, and `rt must-fail` asks only that one of them is refused. This applies each edit to
a copy of the repository, checks the crate there, and looks for a line `fn NAME: no proof: expected answers ..` or
`fn NAME: not proved` for every function that the edit changes, by its name, and for as many as bear that name. It ends
with status 1 if one has none. Places outside of functions, as constants, are only counted.
"""
import pathlib
import re
import shutil
import subprocess
import sys
import tempfile


def pairs(edit):
    """The (file, old, new) of an edit, in their order."""
    file, old = "", ""
    for line in edit.read_text(encoding="utf-8").split("\n"):
        if line.startswith("file: "):
            file = line[len("file: "):].strip()
        elif line.startswith("old: "):
            old = line[len("old: "):]
        elif line.startswith("new:"):
            yield file, old, line[len("new:"):].removeprefix(" ")


def function_at(text, at):
    """Where the function begins that the place stands in, and its name; or none."""
    found = None
    for head in re.finditer(r"(?m)^([ \t]*)(?:pub(?:\([a-z]+\))? )?(?:final )?fn (\w+)", text[:at]):
        end = re.compile(r"(?m)^%s\}" % head[1]).search(text, head.end())
        found = (head.start(), head[2]) if end and at < end.end() else found
    return found


def tried(top, crate, edit):
    """Checks a copy of the crate with the edit, and returns the places of the changed functions by their names, the
    number of places outside of functions, and what the check said."""
    changed, outside, was = {}, 0, {}
    with tempfile.TemporaryDirectory() as room:
        copy = pathlib.Path(room) / "copy"
        shutil.copytree(top, copy, ignore=shutil.ignore_patterns("out", ".git", "target"))
        for file, old, new in pairs(edit):
            path = copy / "crates" / crate / file
            text = path.read_text(encoding="utf-8")
            whole = was.setdefault(file, text)
            found = function_at(whole, whole.index(old))
            if found:
                changed.setdefault(found[1], set()).add((file, found[0]))
            outside += not found
            path.write_text(text.replace(old, new), encoding="utf-8")
        ran = subprocess.run(["rt", "check"], cwd=copy / "crates" / crate, capture_output=True, text=True)
        return changed, outside, ran.stdout + ran.stderr


def main():
    top = pathlib.Path(__file__).resolve().parent.parent
    crate, labels = sys.argv[1], sys.argv[2:]
    edits = sorted((top / "crates" / crate / "must-fail").glob("*.edit"))
    passed = False
    for edit in (it for it in edits if not labels or it.stem in labels):
        changed, outside, said = tried(top, crate, edit)
        refused = set(re.findall(r"(?m)^fn (\S+): (?:no proof: expected answers|not proved)", said))
        print(f"{edit.stem}:" + f" {outside} outside of functions" * bool(outside))
        for name, places in changed.items():
            own = sorted(it for it in refused if it.endswith(f"::{name}"))
            lacks = len(own) < len(places)
            passed |= lacks
            print(f"  {name}: {' '.join(own)}" + f" NOT REFUSED, of {len(places)}" * lacks)
    return 1 if passed else 0


if __name__ == "__main__":
    sys.exit(main())
