#!/usr/bin/env python3
"""Brings the repository's own definitions and lemmas to the spelling of this Rattle: words in snake case, facts and types in camel case.

usage: python3 tools/respell.py [FOLDER]      after the kit's port.py, once, at the top

tools/respelled.txt has a line 'OLD NEW' for each name. A lemma that would have the name of a definition ends in _lem. Names of
functions, exported names and strings stay. In comments and documents only names between backticks are turned.
"""

import os
import re
import sys

# Lemmas that port.py spelled as a definition is spelled now.
LEMMAS = ["all_made", "digit_value", "end_before", "from_start", "goes_on", "in_order", "is_made", "no_room", "step_by", "two_digits"]
TOKEN = re.compile(r"[A-Za-z_][A-Za-z0-9_'₀-₉-]*")
STRING = re.compile(r'b?"(?:[^"\\]|\\.)*"')
TICKS = re.compile(r"`[^`\n]+`")


def table(top):
    with open(os.path.join(top, "tools", "respelled.txt"), encoding="utf-8") as f:
        return dict(l.split() for l in f)


def turn(text, names, lemmas):
    def one(m):
        w = m.group(0)
        before = text[m.start() - 1 : m.start()]
        if lemmas and w in LEMMAS and before != ".":
            return w + "_lem"
        return names.get(w, w)

    return TOKEN.sub(one, text)


def outside_strings(text, names, lemmas):
    out, at = [], 0
    for m in STRING.finditer(text):
        out += [turn(text[at : m.start()], names, lemmas), m.group(0)]
        at = m.end()
    return "".join(out) + turn(text[at:], names, lemmas)


def ticked(text, names):
    return TICKS.sub(lambda m: turn(m.group(0), names, False), text)


def source(text, names, mark, lemmas):
    lines = []
    for l in text.split("\n"):
        m = re.search(r"(^|\s)" + mark + r"(\s|$)", l)
        # a mark within a string is no comment
        cut = m.start() if m and l[: m.start()].count('"') % 2 == 0 else len(l)
        lines.append(outside_strings(l[:cut], names, lemmas) + ticked(l[cut:], names))
    return "\n".join(lines)


def edit(text, names):
    lines = []
    antt = ".antt" in text.split("old:")[0]
    for l in text.split("\n"):
        if l.startswith(("old:", "new:")):
            lines.append(source(l, names, "--" if antt else "//", antt))
        else:
            lines.append(ticked(l, names))
    return "\n".join(lines)


def main():
    top = os.path.abspath(sys.argv[1] if len(sys.argv) > 1 else ".")
    names = table(os.path.dirname(os.path.dirname(os.path.abspath(__file__))))
    for folder, dirs, files in os.walk(top):
        dirs[:] = sorted(d for d in dirs if d not in ("out", ".git", "target", "src" if folder == os.path.join(top, "docs") else ""))
        for f in sorted(files):
            path = os.path.join(folder, f)
            inside = path.startswith(os.path.join(top, "crates") + os.sep)
            if not (inside and f.endswith((".rt", ".antt", ".edit")) or f.endswith(".md")):
                continue
            with open(path, encoding="utf-8") as it:
                old = it.read()
            if f.endswith(".antt"):
                new = source(old, names, "--", True).replace("Operand-at", "operand_at")
            elif f.endswith(".rt"):
                new = source(old, names, "//", False)
            elif f.endswith(".edit"):
                new = edit(old, names)
            else:
                new = ticked(old, names)
            if new != old:
                with open(path, "w", encoding="utf-8") as it:
                    it.write(new)


main()
