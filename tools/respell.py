#!/usr/bin/env python3
"""Spells the names that this repository's specs and lemmas declare as today's Rattle does.

usage: respell.py [--list]

A word (a definition, a lemma, a field) with dashes gets underscores, and a type gets upper camel case. What Rattle makes
itself (goals, steps) stays: only names that specs/, the lemma files of proofs/ and the helpers in a function's answers
declare are respelled, and only as whole words outside comments and strings. With --list it changes nothing and prints the
pairs. It stops where two names would fall together.
"""

import glob
import re
import sys

NAME = r"[^\s(){}\[\].;,@\"«»:]+"
TOKEN = re.compile(r"(?<![^\s(){}\[\].;,@\"«»])" + NAME + r"(?![^\s(){}\[\].;,@\"«»:])")
# A word that is no part of a path or a field.
WORD = re.compile(r"(?<![^\s(){}\[\];,@\"«»])" + NAME + r"(?![^\s(){}\[\];,@\"«»:])")
DECLARED = re.compile(
    r"^ *(?:(?:pub|abbrev|unfoldable|data|record|module|infixl?|infixr?) +)*(" + NAME + r")((?: [({].*[)}])*) : (.*)$", re.M
)


def new_name(old):
    if old[0].isupper():
        return "".join(w[:1].upper() + w[1:] for w in old.split("-"))
    return old.replace("-", "_")


def declared(path, text):
    """The names with a dash that a file declares, but for the goals that it answers."""
    found = set()
    for m in DECLARED.finditer(text):
        name, rest = m.group(1), m.group(3)
        if "-" not in name.strip("-") or name.startswith("-") or "◌" in name:
            continue
        if not re.fullmatch(r"[A-Za-z][\w'′-]*", name):
            continue
        if re.match(r"(goal|given|need)\.", rest):
            continue
        found.add(name)
    return found


def parts(text, comment):
    """The text cut into code and what is left alone: comments and strings."""
    for m in re.finditer(r'(%s.*?$)|("(?:[^"\\\n]|\\.)*")|((?:(?!%s)[^"])+)|(")' % (comment, comment), text, re.M | re.S):
        yield m.group(0), bool(m.group(3))


def respelled(text, names, comment):
    out = []
    for part, code in parts(text, comment):
        out.append(TOKEN.sub(lambda m: names.get(m.group(0), m.group(0)), part) if code else part)
    return "".join(out)


def main():
    antt = sorted(glob.glob("crates/*/specs/**/*.antt", recursive=True) + glob.glob("crates/*/proofs/**/*.antt", recursive=True))
    antt = [p for p in antt if "/out/" not in p]
    rust = sorted(glob.glob("crates/*/src/**/*.rt", recursive=True))
    texts = {p: open(p, encoding="utf-8").read() for p in antt + rust}
    old = set()
    for p in antt:
        old |= declared(p, texts[p])
    names = {n: new_name(n) for n in old}
    clashes = []
    back = {}
    for n, m in sorted(names.items()):
        back.setdefault(m, []).append(n)
    clashes += [f"{ns} all become {m}" for m, ns in back.items() if len(ns) > 1]
    for p in antt:
        words = set()
        for part, code in parts(texts[p], "--"):
            if code:
                words |= {m.group(0) for m in WORD.finditer(part)}
        clashes += [f"{n} and {names[n]} in {p}" for n in sorted(words & old) if names[n] in words]
    for clash in clashes:
        print("falls together:", clash, file=sys.stderr)
    if "--list" in sys.argv:
        for n, m in sorted(names.items()):
            print(n, m)
        return
    if clashes:
        sys.exit(1)
    changed = 0
    for p, text in texts.items():
        turned = respelled(text, names, "--" if p.endswith(".antt") else "//")
        if turned != text:
            open(p, "w", encoding="utf-8").write(turned)
            changed += 1
    print(f"respelled {len(names)} names in {changed} files")


main()
