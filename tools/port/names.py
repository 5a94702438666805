#!/usr/bin/env python3
"""Spells this repository's own definitions and lemmas as today's Rattle does, by names.tsv beside this file.

usage: tools/port/names.py            at the top of the repository, once, right after port.py

A row of names.tsv has the old name, a tab, and the new one. It turns whole words in .antt files, and in .rt and .edit files the words
that can be no Rust name; in prose, words in camel case and words between backticks. Functions of src/, strings, inputs and outputs
keep their names.
"""
import os
import re

HERE = os.path.dirname(os.path.realpath(__file__))
WORD = re.compile(r"[^\s(){}.;,@\"«»`]+")
COMMENT = re.compile(r"(?:(?<=\s)|^)--(?=\s|$)")
CAMEL = re.compile(r"^[a-z]+(?:-[a-z]+)*[A-Z]|^[a-z][a-z0-9]*[A-Z]|-[a-z]+[A-Z]")


def table():
    with open(os.path.join(HERE, "names.tsv"), encoding="utf-8") as f:
        return dict(line.rstrip("\n").split("\t") for line in f)


def turned(text, names, camel_only=False):
    def one(m):
        w = m.group(0)
        return names.get(w, w) if not camel_only or CAMEL.search(w) else w

    return WORD.sub(one, text)


def prose(text, names):
    """Words between backticks, and words in camel case wherever they stand."""
    parts = re.split(r"(`[^`\n]*`)", text)
    return "".join(turned(p, names, camel_only=not p.startswith("`")) for p in parts)


def antt(text, names):
    lines = []
    for line in text.split("\n"):
        m = COMMENT.search(line)
        at = m.start() if m else len(line)
        lines.append(turned(line[:at], names) + prose(line[at:], names))
    return "\n".join(lines)


def rust(text, names):
    return turned(text, names, camel_only=True)


def edit(text, names):
    """The lines of an edit are of the file that the line 'file:' above them names."""
    how, lines = rust, []
    for line in text.split("\n"):
        if line.startswith("file: "):
            how = antt if line.endswith(".antt") else rust
        if line.startswith(("old: ", "new: ")):
            line = line[:5] + how(line[5:], names)
        lines.append(line)
    return "\n".join(lines)


def main():
    names = table()
    hows = {".antt": antt, ".rt": rust, ".edit": edit, ".md": prose}
    for top in ("crates", "tests", "docs", "README.md", "reference", "tools", "bench", "wrapper"):
        for folder, dirs, files in [(".", [], [top])] if os.path.isfile(top) else os.walk(top):
            dirs[:] = sorted(d for d in dirs if d not in ("out", "target", "port"))
            for name in sorted(files):
                how = hows.get(os.path.splitext(name)[1])
                if not how:
                    continue
                path = os.path.join(folder, name)
                with open(path, encoding="utf-8") as f:
                    old = f.read()
                new = how(old, names)
                if new != old:
                    with open(path, "w", encoding="utf-8") as f:
                        f.write(new)


if __name__ == "__main__":
    main()
