#!/usr/bin/env python3
"""Respells the names of definitions and lemmas by the table spelling.txt: in .antt files, in the clauses of .rt files, in edits.

Run once, at the top of the repository, on text that still has the old names. Names in words with a dash are turned only
outside comments; strings stay as they are.
"""
import os
import re

HERE = os.path.dirname(os.path.realpath(__file__))
TABLE = dict(line.split() for line in open(os.path.join(HERE, "spelling.txt"), encoding="utf-8") if not line.startswith("#"))
TOKEN = re.compile(r"[^\s(){}\[\].,;:\"|⌜⌝«»]+")
NAMES = re.compile(r"[a-z][\w']*[A-Z][\w']*")


def code(text):
    return TOKEN.sub(lambda m: TABLE.get(m[0], m[0]), text)


def remark(text):
    """Of a comment only names that no prose has: those with a capital inside."""
    return NAMES.sub(lambda m: TABLE.get(m[0], m[0]), text)


def antt(text):
    out = []
    for line in text.split("\n"):
        k = line.find("--")
        out.append(code(line) if k < 0 else code(line[:k]) + remark(line[k:]))
    return "\n".join(out)


def rt(text):
    parts = re.split(r"(//[^\n]*|b?\"(?:\\.|[^\"\\])*\"|b?'(?:\\.|[^'\\])')", text)
    return "".join(remark(p) if p.startswith("//") else p if k % 2 else code(p) for k, p in enumerate(parts))


def edit(text):
    return "\n".join(code(x) if x.startswith(("old:", "new:")) else x for x in text.split("\n"))


def main():
    for folder, dirs, files in os.walk("crates"):
        dirs[:] = sorted(d for d in dirs if d != "out")
        for name in sorted(files):
            turn = {".antt": antt, ".rt": rt, ".edit": edit}.get(os.path.splitext(name)[1])
            if not turn:
                continue
            path = os.path.join(folder, name)
            with open(path, encoding="utf-8") as f:
                old = f.read()
            new = turn(old)
            if new != old:
                with open(path, "w", encoding="utf-8") as f:
                    f.write(new)


main()
