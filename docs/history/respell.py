#!/usr/bin/env python3
"""Gives the repository's own definitions and lemmas the spelling of today's library.

usage: python3 docs/history/respell.py        at the top of the repository, once, after the toolchain's own porting script

`respell.txt` beside this file has a line for each name that is turned here: the old one, the new one. (The porting script
had turned those already that the library spelled alike.) Functions and definitions that were in
camel case, and plain words that were joined by a dash, are in snake case; a dash stays where it joins the names of two
operations. Names are turned as whole words, in specifications, proofs, clauses and must-fail edits, and in pages between
backticks. Text in quotes stays. In comments only names in camel case are turned, since a dash may be English there.
"""

import os
import re
import sys

HERE = os.path.dirname(os.path.realpath(__file__))
WORD = re.compile(r"[\w'-]+")
QUOTED = re.compile(r'b?"(?:[^"\\]|\\.)*"')


def table():
    with open(os.path.join(HERE, "respell.txt"), encoding="utf-8") as lines:
        return dict(line.split() for line in lines)


def turned(text, names):
    return WORD.sub(lambda word: names.get(word.group(), word.group()), text)


def outside_quotes(text, names):
    done, at = [], 0
    for quoted in QUOTED.finditer(text):
        done += [turned(text[at : quoted.start()], names), quoted.group()]
        at = quoted.end()
    return "".join(done) + turned(text[at:], names)


def line_turned(line, mark, names, in_camel_case):
    """One line of a file in which comments begin with mark."""
    code, comment, said = line.partition(mark)
    return outside_quotes(code, names) + comment + turned(said, in_camel_case)


def file_turned(path, text, names):
    in_camel_case = {old: new for old, new in names.items() if "-" not in old}
    if path.endswith(".md"):
        return re.sub(r"`[^`\n]*`", lambda span: turned(span.group(), names), text)
    mark = "-- " if path.endswith(".antt") else "//"
    return "".join(line_turned(line, mark, names, in_camel_case) for line in text.splitlines(keepends=True))


def files(root):
    for folder, inner, names in os.walk(root):
        inner[:] = sorted(f for f in inner if f not in ("out", ".git", "target"))
        for name in sorted(names):
            if name.endswith((".rt", ".antt", ".edit", ".md")):
                yield os.path.join(folder, name)


def main():
    if not os.path.isdir("crates"):
        sys.exit("run it at the top of the repository")
    names = table()
    changed = 0
    for path in files("."):
        with open(path, encoding="utf-8") as f:
            old = f.read()
        new = file_turned(path, old, names)
        if new != old:
            changed += 1
            with open(path, "w", encoding="utf-8") as f:
                f.write(new)
    print(f"{changed} files changed")


if __name__ == "__main__":
    main()
