#!/usr/bin/env python3
"""Spells definitions and lemmas as today's Rattle does, by the table spelling.tsv beside this script: old, a tab, new.

usage: python3 tools/spelling.py [FOLDER]      FOLDER: the repository's top, or a copy of it; the default is this one

Run once, right after the kit's port.py. What turns: each whole name in the .antt files of crates/ and in the `ghost use` items and
clauses of its .rt files; behind a dot a field or a name with a capital inside alone, since the other names there are made by the check;
and names in back quotes in README.md and docs/. Functions of src/, exported names, strings, inputs and outputs stay.
"""

import glob
import os
import re
import sys

HERE = os.path.dirname(os.path.realpath(__file__))
NAME = re.compile(r'[^\s(){}.;,@"«»`]+')
COMMENT = re.compile(r'(?m)(?:^|(?<=\s))--[^\n]*')
STRING = re.compile(r'"(?:[^"\\\n]|\\.)*"')
SPAN = re.compile(r"`[^`\n]+`")
WORD = re.compile(r"[A-Za-z][\w']*")


def table():
    with open(os.path.join(HERE, "spelling.tsv"), encoding="utf-8") as f:
        return dict(line.rstrip("\n").split("\t") for line in f)


def has_hump(name):
    return re.search(r"[a-z0-9][A-Z]", name) is not None


def apart(pattern, text, of_found, of_rest):
    """The text with of_found of what the pattern finds, and of_rest of what lies between."""
    out, at = [], 0
    for m in pattern.finditer(text):
        out += [of_rest(text[at : m.start()]), of_found(m[0])]
        at = m.end()
    return "".join(out) + of_rest(text[at:])


class Speller:
    def __init__(self, rows, fields):
        self.rows, self.fields = rows, fields

    def one(self, text, at, name):
        new = self.rows.get(name)
        if new is None or name.startswith("Need-"):
            return name
        behind_dot = at > 0 and text[at - 1] == "."
        if behind_dot and not has_hump(name) and name not in self.fields:
            return name
        return new

    def code(self, text):
        return NAME.sub(lambda m: self.one(text, m.start(), m[0]), text)

    def prose(self, text):
        return SPAN.sub(lambda m: self.code(m[0]), text)

    def humps(self, text):
        """Only names with a capital inside, which nothing of Rust's has."""
        return WORD.sub(lambda m: self.rows.get(m[0], m[0]) if has_hump(m[0]) else m[0], text)

    def antt(self, text):
        quiet = re.compile(COMMENT.pattern + "|" + STRING.pattern)
        return apart(quiet, text, lambda t: t if t[0] == '"' else self.prose(t), self.code)

    def rt(self, text):
        items = re.compile(r"(?m)^ *ghost use [^;]*;")
        return apart(items, text, self.code, lambda rest: apart(STRING, rest, str, self.humps))


def record_fields(files):
    found = set()
    for file in files:
        inside = None
        for line in open(file, encoding="utf-8"):
            depth = len(line) - len(line.lstrip())
            if line.strip() and inside is not None and depth <= inside:
                inside = None
            if inside is not None:
                m = re.match(r" *(?:pub )?(\S+) :(?: |$)", line)
                found |= {m[1]} if m else set()
            if re.match(r" *(?:pub )?record ", line):
                inside = depth
    return found


def rewrite(file, turn):
    with open(file, encoding="utf-8") as f:
        old = f.read()
    new = turn(old)
    if new != old:
        with open(file, "w", encoding="utf-8") as f:
            f.write(new)
    return new != old


def main():
    top = sys.argv[1] if len(sys.argv) > 1 else os.path.dirname(HERE)
    inside = lambda end: [f for f in glob.glob(f"{top}/crates/*/*/**/*{end}", recursive=True) if "/out/" not in f]
    antt = inside(".antt")
    speller = Speller(table(), record_fields(antt))
    changed = sum(rewrite(f, speller.antt) for f in antt)
    changed += sum(rewrite(f, speller.rt) for f in inside(".rt"))
    pages = [f"{top}/README.md", *glob.glob(f"{top}/docs/**/*.md", recursive=True)]
    changed += sum(rewrite(f, speller.prose) for f in pages)
    print(f"spelling: {changed} files changed")


if __name__ == "__main__":
    main()
