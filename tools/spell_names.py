#!/usr/bin/env python3
"""Brings the repository's own names to today's spelling: a function, lemma or field written in camel case is written in snake case.

usage: python3 tools/spell_names.py [FOLDER]      below FOLDER (default: the repository), every .antt, .rt and .edit file of crates/

Types, facts and modules keep their capital first letter. Strings of .rt files keep their text. Two names that would fall together stop it.
"""
import os
import re
import sys

ROOT = sys.argv[1] if len(sys.argv) > 1 else os.path.join(os.path.dirname(os.path.realpath(__file__)), "..")
CAMEL = re.compile(r"(?<![A-Za-z0-9_'])[a-z][a-z0-9]*(?:[A-Z][a-z0-9]*)+(?![A-Za-z0-9_])")
STRING = re.compile(r'"(?:[^"\\\n]|\\.)*"')
# names of a tactic, of a word of std or of a field that the plain respelling would meet
OTHER = {}


def snake(name):
    return OTHER.get(name) or re.sub(r"([A-Z])", lambda m: "_" + m.group(1).lower(), name)


def files():
    for folder, dirs, names in os.walk(os.path.join(ROOT, "crates")):
        dirs[:] = sorted(d for d in dirs if d != "out")
        for n in sorted(names):
            if n.endswith((".antt", ".rt", ".edit")):
                yield os.path.join(folder, n)


def respelled(text, strings):
    if not strings:
        return CAMEL.sub(lambda m: snake(m.group()), text)
    out, at = [], 0
    for m in STRING.finditer(text):
        out += [CAMEL.sub(lambda c: snake(c.group()), text[at:m.start()]), m.group()]
        at = m.end()
    return "".join(out) + CAMEL.sub(lambda c: snake(c.group()), text[at:])


def main():
    texts = {p: open(p, encoding="utf-8").read() for p in files()}
    said = {}
    for t in texts.values():
        for m in CAMEL.finditer(t):
            said.setdefault(snake(m.group()), set()).add(m.group())
    apart = {new: olds for new, olds in said.items() if len(olds) > 1}
    if apart:
        raise SystemExit(f"names that would fall together: {apart}")
    for p, t in texts.items():
        new = respelled(t, p.endswith(".rt"))
        if new != t:
            with open(p, "w", encoding="utf-8") as f:
                f.write(new)


main()
