#!/usr/bin/env python3
"""Respells the repository's own definitions and lemmas as today's Rattle spells them: words in snake case, types in camel case.

usage: tools/respell.py [FOLDER]    in a repository (or FOLDER) over which the toolchain's port script ran: rewrites crates/ in place

tools/respell.tsv is the table, a name and its new one a line. Where a definition and a lemma would fall together (wordOf and word-of), the
lemma has `_lem` or another word. Functions of src/, strings, inputs and outputs keep their names, and so do the names in proofs of one
function that only that proof knows. In comments a name with a dash is turned only between backticks, since English has such words too.
"""
import os
import re
import sys

HERE = os.path.dirname(os.path.abspath(__file__))
WORD = r"[A-Za-z][A-Za-z0-9_'·\u0370-\u03ff\u2080-\u2089]*(?:-[A-Za-z0-9_'·\u0370-\u03ff\u2080-\u2089]+)*"
TOKEN = re.compile(r"(?<![\w'-])" + WORD + r"(?![\w'])")
with open(os.path.join(HERE, "respell.tsv"), encoding="utf-8") as f:
    TABLE = dict(line.rstrip("\n").split("\t") for line in f if "\t" in line)


def code(text):
    return TOKEN.sub(lambda m: TABLE.get(m.group(), m.group()), text)


def prose(text):
    """A comment: names between backticks, and names that no English word looks like."""
    parts = re.split(r"(`[^`]*`)", text)
    for i, part in enumerate(parts):
        if i % 2:
            parts[i] = code(part)
        else:
            parts[i] = TOKEN.sub(lambda m: m.group() if "-" in m.group() else TABLE.get(m.group(), m.group()), part)
    return "".join(parts)


def line_of(line, mark):
    """A line of code: what is no string and no comment, then the comment."""
    out, rest = [], line
    while rest:
        m = re.search(r'"(?:[^"\\]|\\.)*"|' + re.escape(mark), rest)
        if not m:
            out.append(code(rest))
            break
        out.append(code(rest[: m.start()]))
        if m.group() == mark:
            out.append(prose(rest[m.start():]))
            break
        out.append(m.group())
        rest = rest[m.end():]
    return "".join(out)


def file_of(path):
    mark = "--" if path.endswith(".antt") else "//"
    with open(path, encoding="utf-8") as f:
        old = f.read()
    new = "\n".join(line_of(line, mark) for line in old.split("\n"))
    if new != old:
        with open(path, "w", encoding="utf-8") as f:
            f.write(new)
    return new != old


def main(root):
    changed = 0
    for folder, dirs, files in os.walk(os.path.join(root, "crates")):
        dirs[:] = sorted(d for d in dirs if d != "out")
        for name in sorted(files):
            if name.endswith((".rt", ".antt")):
                changed += file_of(os.path.join(folder, name))
    print(f"respell: {changed} files changed")


if __name__ == "__main__":
    main(sys.argv[1] if len(sys.argv) > 1 else ".")
