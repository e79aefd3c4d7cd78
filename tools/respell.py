#!/usr/bin/env python3
"""Gives the repository's own definitions and lemmas the spelling of today's Rattle: types and facts in camel case, all else in snake case.

usage: python3 tools/respell.py    at the top of the repository, after /opt/rattle/port/port.py; the table is tools/respell.tsv, an old and a new name a line

It turns whole words of specs/, proofs/, clauses and must-fail edits, and of the documents what stands in backticks. Code, strings and
comments keep their words; none of the old names is a word of the code, since each has a dash.
"""

import os
import re

HERE = os.path.dirname(os.path.realpath(__file__))
WORD = re.compile(r"[^\s(){}\[\];,.:λ`\"|⟨⟩]+")
TICKED = re.compile(r"`[^`\n]*`")
STRING = re.compile(r'"(?:[^"\\]|\\.)*"')


def table():
    with open(os.path.join(HERE, "respell.tsv"), encoding="utf-8") as f:
        return dict(line.rstrip("\n").split("\t") for line in f)


def words(text, names):
    return WORD.sub(lambda m: names.get(m.group(0), m.group(0)), text)


def ticked(text, names):
    return TICKED.sub(lambda m: words(m.group(0), names), text)


def code(line, mark, names):
    """A line of code: its words, but not those of strings; of its comment only what stands in backticks."""
    at = line.find(mark)
    body, comment = (line, "") if at < 0 else (line[:at], line[at:])
    parts, end = [], 0
    for m in STRING.finditer(body):
        parts += [words(body[end : m.start()], names), m.group(0)]
        end = m.end()
    return "".join(parts) + words(body[end:], names) + ticked(comment, names)


def turned(path, text, names):
    if path.endswith(".md"):
        return ticked(text, names)
    mark = "-- " if path.endswith(".antt") else "//"
    return "".join(code(line, mark, names) for line in text.splitlines(keepends=True))


def main():
    names = table()
    for top in ("crates", "docs", "README.md"):
        walk = [(".", [], [top])] if top.endswith(".md") else os.walk(top)
        for folder, dirs, files in walk:
            dirs[:] = [d for d in dirs if d != "out"]
            for file in files:
                path = os.path.join(folder, file)
                if not path.endswith((".rt", ".antt", ".edit", ".md")):
                    continue
                with open(path, encoding="utf-8") as f:
                    text = f.read()
                new = turned(path, text, names)
                if new != text:
                    with open(path, "w", encoding="utf-8") as f:
                        f.write(new)


main()
