#!/usr/bin/env python3
"""Writes what a call is lent as lists: in clauses `was p` is `p.now` of a `&` and `p.old` of a `&mut`, `is p` is `p.new`, a lent parameter
that is passed to a definition whole is what it held when the call began, and `town` is `town_of`.

usage: python3 tools/lent_as_lists.py [FOLDER]      below FOLDER (default: the repository), every .rt file of crates/

A pair of the states before and after was one type for `&` and `&mut`; today these are two. A second run changes nothing.
"""
import os
import re
import sys

ROOT = sys.argv[1] if len(sys.argv) > 1 else os.path.join(os.path.dirname(os.path.realpath(__file__)), "..")
W = r"[^\s(){};,\"\[\]\\.◌«»]+"


def match(text, i, a, b):
    """the index behind the bracket that closes text[i]"""
    depth = 0
    while i < len(text):
        if text[i] == a:
            depth += 1
        elif text[i] == b:
            depth -= 1
            if depth == 0:
                return i + 1
        i += 1
    raise SystemExit("a bracket is not closed")


def params(text):
    out, depth, cur = {}, 0, ""
    for ch in text + ",":
        if ch in "([{<":
            depth += 1
        if ch in ")]}>":
            depth -= 1
        if ch == "," and depth == 0:
            m = re.match(r"\s*(?:mut )?(\w+)\s*:\s*&(?:'\w+ )?(mut )?", cur)
            if m:
                out[m.group(1)] = "mut" if m.group(2) else "shared"
            cur = ""
        else:
            cur += ch
    return out


def clause(text, kinds):
    then = lambda p: p + (".old" if kinds[p] == "mut" else ".now")

    def pair(m):
        word, p = m.group(1), m.group(2)
        if p not in kinds:
            return m.group()
        return then(p) if word == "was" else p + ".new"

    text = re.sub(r"\((was|is) (\w+)\)", lambda m: pair(m) if m.group(2) in kinds else m.group(), text)
    text = re.sub(r"(?<![\w.'-])(was|is) (\w+)(?![\w.'-])", pair, text)
    text = re.sub(r"(?<![\w.'-])town(?= [\w(])", "town_of", text)
    for p in kinds:
        text = re.sub(r"(?<![\w.'λ-])%s(?![\w.'-])(?! [.:=])" % re.escape(p), then(p), text)
    return text


def turned(text):
    out, at = [], 0
    for m in re.finditer(r"\bfn \w+(?:<[^>]*>)?\(", text):
        if m.start() < at:
            continue
        end = match(text, m.end() - 1, "(", ")")
        kinds = params(text[m.end():end - 1])
        out.append(text[at:end])
        at = end
        while True:
            c = re.compile(r"\s*(?://[^\n]*\n\s*)*(?:->\s*[^{]*?)?\s*(requires\*?|ensures\*?)(?: \w+)? (?=\{)").match(text, at)
            if not c:
                break
            end = match(text, c.end(), "{", "}")
            out.append(text[at:c.end()])
            out.append(clause(text[c.end():end], kinds))
            at = end
    out.append(text[at:])
    text = "".join(out)
    # the imports that nothing uses any more
    body = re.sub(r"ghost use [^;]*;", "", text)

    def line(m):
        names = [n for n in m.group(2).split(", ") if n not in ("was", "is", "town", "Lent")]
        if re.search(r"(?<![\w.'-])town_of(?![\w'-])", body) and "town_of" not in names and "was" not in names and "town" in m.group(2).split(", "):
            names.append("town_of")
        return "ghost use Rattle.survey.specs.Town.{%s};\n" % ", ".join(names) if names else ""

    return re.sub(r"(ghost use Rattle\.survey\.specs\.Town\.\{)([^}]*)\};\n", lambda m: line(m), text)


def main():
    for folder, dirs, names in os.walk(os.path.join(ROOT, "crates")):
        dirs[:] = sorted(d for d in dirs if d != "out")
        for n in sorted(names):
            if n.endswith(".rt"):
                p = os.path.join(folder, n)
                with open(p, encoding="utf-8") as f:
                    text = f.read()
                new = turned(text)
                if new != text:
                    with open(p, "w", encoding="utf-8") as f:
                        f.write(new)


main()
