#!/usr/bin/env python3
"""Spells the repository's definitions and lemmas as the toolchain's own are spelled: in snake case, by spelling.tsv beside this script.

usage: tools/spelling.py ROOT

Run it once. Each row of the table is an old name, a tab and the new one. Of a file below ROOT that ends in .antt or .rt, whole words of the code
turn; in comments those in capitals and small letters mixed, and others between backquotes; in pages (.md) what stands between backquotes. Rust's
strings stay. A name behind one of HEADS and a dot is one that the toolchain made, and stays. Rows whose old name has no capital and no dash are of
lemmas that would have a definition's new name: such a name turns in .antt files alone, in code, and beside no dot.
"""

import os
import re
import sys

HERE = os.path.dirname(os.path.realpath(__file__))
HEADS = {"c", "goal", "tie", "l", "w", "d"}
WORD = re.compile(r"""[^\s(){}.;,@"«»`]+""")
COMMENT = {".antt": re.compile(r"(?:(?<=\s)|^)--(?=\s|-|$)"), ".rt": re.compile(r"//")}
STRING = re.compile(r"""b?"(?:[^"\\\n]|\\.)*\"""")


def mixed(name):
    return any(a.islower() and b.isupper() for a, b in zip(name, name[1:]))


def plain(name):
    return name == name.lower() and "-" not in name


def code(text, table, kind=""):
    def turned(m):
        at = m.start()
        if plain(m[0]) and (kind != ".antt" or text[at - 1 : at] == "." or text[m.end() : m.end() + 1] == "."):
            return m[0]
        head = re.search(r"([^\s(){}.;,@]+)\.$", text[:at][-80:])
        if head and head[1] in HEADS:
            return m[0]
        return table.get(m[0], m[0])

    return WORD.sub(turned, text)


def spans(text, table):
    return re.sub(r"`[^`\n]*`", lambda m: code(m[0], table), text)


def prose(text, table):
    return WORD.sub(lambda m: table.get(m[0], m[0]) if mixed(m[0]) else m[0], spans(text, table))


def line(text, kind, table):
    strings = [(m.start(), m.end()) for m in STRING.finditer(text)] if kind == ".rt" else []
    cut = len(text)
    for m in COMMENT[kind].finditer(text):
        if not any(a <= m.start() < b for a, b in strings):
            cut = m.start()
            break
    out, at = "", 0
    for a, b in strings:
        if b <= cut:
            out += code(text[at:a], table, kind) + text[a:b]
            at = b
    return out + code(text[at:cut], table, kind) + prose(text[cut:], table)


def main(root):
    with open(os.path.join(HERE, "spelling.tsv"), encoding="utf-8") as f:
        table = dict(row.rstrip("\n").split("\t") for row in f)
    for folder, dirs, files in os.walk(root):
        dirs[:] = [d for d in dirs if d not in ("out", ".git", "wip")]
        for name in files:
            path, kind = os.path.join(folder, name), os.path.splitext(name)[1]
            if kind not in (".antt", ".rt", ".md"):
                continue
            with open(path, encoding="utf-8") as f:
                old = f.read()
            if kind == ".md":
                new = spans(old, table)
            else:
                new = "\n".join(line(l, kind, table) for l in old.split("\n"))
            if new != old:
                with open(path, "w", encoding="utf-8") as f:
                    f.write(new)


if __name__ == "__main__":
    if len(sys.argv) != 2:
        sys.exit(__doc__)
    main(sys.argv[1])
