#!/usr/bin/env python3
"""Renames the repository's own names that clash with a tactic, a word of std or one another, everywhere in crates/ (.antt, .rt, .edit).

usage: python3 tools/rename_clashes.py [FOLDER]      below FOLDER (default: the repository)

It can be run again: a name that is renamed already is not met. Strings of .rt files keep their text.
"""
import os
import re
import sys

ROOT = sys.argv[1] if len(sys.argv) > 1 else os.path.join(os.path.dirname(os.path.realpath(__file__)), "..")
STRING = re.compile(r'("(?:[^"\\\n]|\\.)*")')
# old name → new name, and where: a part of the paths it is renamed in, or patterns (OLD stands for the old name); None is everywhere. In this order.
NAMES = [
    # the lemma of proofs/Places.antt; `place_at` is the term that `place_in` is made of
    ("place_at", "place_in-at", [
        r"(?m)^pub OLD(?= : \(L : List ℕ\))",
        r"(?<=Rattle\.survey\.proofs\.Places\.\{)[^}]*?OLD(?=[,}])",
        r"OLD(?= L a [ph]\b)",
    ]),
    # `first_of (.., ..)` is a tactic, and is left alone
    ("first_of", "first-agree", "/division/proofs/Ties.antt"),
    ("first_of", "first_nonzero", None),
]
# a call of the tactic of that name
TACTIC = r"(?!\s*\(\s*(?:search|grind|omega|cc|simp|hlevel|assumption|first_of)\b)"


def word(name):
    return r"(?<![\w'₀-₉-])" + re.escape(name) + r"(?![\w'₀-₉-])" + TACTIC


def renamed(text, path):
    for old, new, where in NAMES:
        if where is None or isinstance(where, str) and where in path:
            text = re.sub(word(old), new, text)
        elif not isinstance(where, str):
            for p in where:
                text = re.sub(p.replace("OLD", word(old)), lambda m: re.sub(word(old), new, m.group()), text)
    return text


def main():
    for folder, dirs, names in os.walk(os.path.join(ROOT, "crates")):
        dirs[:] = sorted(d for d in dirs if d != "out")
        for n in sorted(names):
            if not n.endswith((".antt", ".rt", ".edit")):
                continue
            p = os.path.join(folder, n)
            with open(p, encoding="utf-8") as f:
                text = f.read()
            parts = STRING.split(text) if n.endswith(".rt") else [text]
            new = "".join(s if i % 2 else renamed(s, p) for i, s in enumerate(parts))
            if new != text:
                with open(p, "w", encoding="utf-8") as f:
                    f.write(new)


main()
