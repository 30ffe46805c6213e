#!/usr/bin/env python3
"""Brings this repository's own names of specs/ and proofs/ to today's spelling: words in snake case.

usage: python3 tools/respell.py [TOP]     once, after /opt/rattle/port/port.py, at the top of a checkout of the older repository

tools/names.tsv has the old and the new name of each definition, lemma, field and constructor that port.py left as it was, and in
a third column the only folder or file that a row holds for; tools/ported-names.tsv those that port.py turned, for pages and edits. Types, modules, functions of src/, strings and prose keep their spelling.
In comments and pages only what stands in backquotes is a name. Names of goals and steps, which Rattle makes, are no matter of this script.
"""

import os
import re
import sys

HERE = os.path.dirname(os.path.realpath(__file__))
TOKEN = re.compile(r"[^\s(){}.;,:\[\]|=<>\"`!?∷]+")
STRING = re.compile(r"b?\"(?:[^\"\\]|\\.)*\"")


def rows(file):
    with open(os.path.join(HERE, file), encoding="utf-8") as f:
        return [tuple(line.rstrip("\n").split("\t")) for line in f if line.strip()]


def table(path):
    names = {}
    for row in rows("names.tsv") + (rows("ported-names.tsv") if path.endswith((".edit", ".md")) else []):
        if len(row) == 2 or path.startswith(row[2]):
            names[row[0]] = row[1]
    return names


def outside(text, crates):
    """The names that a file takes from a library: they stay."""
    names = set()
    for path, items in re.findall(r"use ([^\s{;]+)(?:\{([^}]*)\})?", text):
        of = re.match(r"Rattle\.(\w+)", path)
        if not (of and of.group(1) in crates):
            names |= set(re.split(r"[,\s]+", items))
    return names


def turn(text, names):
    def one(m):
        word, before = m.group(0), text[: m.start()]
        new = names.get(word, word)
        if new.endswith("_lem") and re.search(r"(?:^|[^\w'-])[a-z][\w'-]*\.$|[)\]}]\.$", before):
            return word.replace("-", "_")  # a step of a proof with the name of a function
        return new

    return TOKEN.sub(one, text)


def quoted(text, names):
    return re.sub(r"`([^`\n]+)`", lambda m: "`" + turn(m.group(1), names) + "`", text)


def antt(text, names):
    lines = []
    for line in text.split("\n"):
        m = re.search(r"(?:^|\s)--(?=\s|$)", line)
        at = m.start() if m else len(line)
        lines.append(turn(line[:at], names) + quoted(line[at:], names))
    return "\n".join(lines)


def rt(text, names):
    lines = []
    for line in text.split("\n"):
        parts, at = [], 0
        spans = [m.span() for m in STRING.finditer(line)]
        comment = next((m.start() for m in re.finditer(r"//", line) if not any(a <= m.start() < b for a, b in spans)), len(line))
        for a, b in spans:
            if a >= comment:
                break
            parts += [turn(line[at:a], names), line[a:b]]
            at = b
        lines.append("".join(parts) + turn(line[at:comment], names) + quoted(line[comment:], names))
    return "\n".join(lines)


def edit(text, names):
    way = rt if re.search(r"(?m)^file: .*\.rt\s*$", text) else antt
    return "\n".join(line if line.startswith("file:") else way(line, names) for line in text.split("\n"))


def pages(top):
    for folder in (".", "docs", "tests", "bench", "examples"):
        for name in sorted(os.listdir(os.path.join(top, folder))):
            if name.endswith(".md"):
                yield os.path.join(folder, name)


def main(argv):
    top = argv[0] if argv else "."
    crates = set(os.listdir(os.path.join(top, "crates")))
    changed = 0
    files = []
    for folder, dirs, names in os.walk(os.path.join(top, "crates")):
        dirs[:] = sorted(d for d in dirs if d != "out")
        files += [os.path.join(folder, n) for n in sorted(names) if n.endswith((".antt", ".rt", ".edit"))]
    for path in files + [os.path.join(top, p) for p in pages(top)]:
        with open(path, encoding="utf-8") as f:
            text = f.read()
        names = table(os.path.relpath(path, os.path.join(top, "crates")))
        for word in outside(text, crates) if path.endswith((".antt", ".rt")) else ():
            names.pop(word, None)
        way = {".antt": antt, ".rt": rt, ".edit": edit, ".md": quoted}[os.path.splitext(path)[1]]
        new = way(text, names)
        if new != text:
            with open(path, "w", encoding="utf-8") as f:
                f.write(new)
            changed += 1
    print(f"respell: {changed} files changed")
    return 0


if __name__ == "__main__":
    raise SystemExit(main(sys.argv[1:]))
