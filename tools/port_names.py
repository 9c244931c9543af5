#!/usr/bin/env python3
"""Brings the repository's own definitions and lemmas to today's spelling: words in snake case, a dash between two names.

usage: tools/port_names.py        at the top, once, after the kit's port.py and before any edit by hand

tools/port_names.txt has a line 'OLD NEW' for each name. Names of Rust functions, paths, strings and exported names stay.
"""

import os
import re

HERE = os.path.dirname(os.path.realpath(__file__))
TOP = os.path.dirname(HERE)
NAMES = dict(line.split() for line in open(os.path.join(HERE, "port_names.txt"), encoding="utf-8"))
CAMEL = {o: n for o, n in NAMES.items() if re.search(r"[a-z0-9][A-Z]", o)}
# names that were in snake case before: they stand for the name itself, never for a part of a path or a field
SNAKE = {o for o in NAMES if "-" not in o and o not in CAMEL}
TOKEN = re.compile(r"(?<![\w'\-])[A-Za-z_][\w]*(?:[\-'][\w]+)*'*(?![\w'\-])")
WORD = re.compile(r"(?<![\w])[A-Za-z_][A-Za-z0-9_]*")


def by(names, text, pattern=TOKEN):
    def one(m):
        t = m.group(0)
        if t in SNAKE and m.start() and m.string[m.start() - 1] == ".":
            return t
        return names.get(t, t)

    return pattern.sub(one, text)


def quoted(text):
    """A comment or a page: camel case everywhere, the rest between backticks."""
    text = by(CAMEL, text)
    return re.sub(r"`[^`\n]+`", lambda m: by({o: n for o, n in NAMES.items() if o not in SNAKE}, m.group(0)), text)


def antt(text):
    lines = []
    for line in text.split("\n"):
        code, mark, note = line.partition("--")
        lines.append(by(NAMES, code) + mark + quoted(note))
    return "\n".join(lines)


def source(text):
    return by(CAMEL, text, WORD)


def edit(text):
    m = re.search(r"^file: *(\S+)", text, re.M)
    return antt(text) if m and m.group(1).endswith(".antt") else source(text)


def turn(path, how):
    with open(path, encoding="utf-8") as f:
        old = f.read()
    new = how(old)
    if new != old:
        with open(path, "w", encoding="utf-8") as f:
            f.write(new)


def main():
    for folder, dirs, files in os.walk(os.path.join(TOP, "crates")):
        dirs[:] = [d for d in dirs if d != "out"]
        for f in files:
            for end, how in ((".antt", antt), (".rt", source), (".edit", edit)):
                if f.endswith(end):
                    turn(os.path.join(folder, f), how)
    for folder in (TOP, os.path.join(TOP, "docs"), os.path.join(TOP, "docs", "changes")):
        for f in os.listdir(folder):
            if f.endswith(".md"):
                turn(os.path.join(folder, f), quoted)


main()
