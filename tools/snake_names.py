#!/usr/bin/env python3
"""Spells this repository's own definitions, lemmas, fields and ghost members in snake case.

usage: tools/snake_names.py [FOLDER]    (default: the repository that holds this script)

What is declared in the .antt files below crates/, or is a ghost member or ghost field of a .rt file there, and has a dash
or a capital inside a name that begins in lower case, gets underscores: 'sizeOr' and 'size-or' are 'size_or'. A prime
becomes an apostrophe. Where two names would fall together, the one with dashes, a lemma, ends in '_lem'. Names of
libraries, labels that the checker makes, functions, strings and files keep their spelling. Must-fail edits and the code
spans of the pages turn with the crates. A line 'look:' names a new spelling that stood in a file already; a second run
changes nothing.
"""

import collections
import os
import re
import sys

NAME = r"[^\s(){}.;,@\"«»:]+"
DECLARED = re.compile(r"(?m)^ *(?:(?:pattern|unfoldable|abbrev|axiom|pub|record|data) )*(" + NAME + r")(?: \{[^{}\n]*\})* :(?= (?!goal\.|need\.))")
MEMBER = re.compile(r"(?m)^ *ghost (" + NAME + r") *[:=]")
IMPORTED = re.compile(r"use (?:Rattle\.(?:std|core)|mathlib|borrow|lib|native|Prim)[^\n{]*\{([^}]*)\}")
TOKEN = re.compile(r'"(?:[^"\\\n]|\\.)*"|[^\s(){}.;,:@"«»]+')


def files(root):
    for folder, dirs, names in os.walk(os.path.join(root, "crates")):
        dirs[:] = sorted(d for d in dirs if d != "out")
        for name in sorted(names):
            if name.endswith((".antt", ".rt", ".edit")):
                yield os.path.join(folder, name)


def read(path):
    with open(path, encoding="utf-8") as f:
        return f.read()


def in_snake_case(name):
    words = re.sub(r"(?<=[a-z0-9])[A-Z]", lambda m: "_" + m[0].lower(), name)
    return words.replace("-", "_").replace("′", "'")


def is_to_turn(name):
    return name[:1].isalpha() and name[:1].islower() and in_snake_case(name) != name and not name.startswith(("returns-", "loop-", "invariant-", "measure-"))


def table(root):
    """Returns old and new spelling of each own name that turns."""
    own, lent = set(), set()
    for path in files(root):
        text = read(path)
        if path.endswith(".edit"):
            continue
        own.update((DECLARED if path.endswith(".antt") else MEMBER).findall(text))
        for items in IMPORTED.findall(text):
            lent.update(it.strip() for it in items.split(","))
    turning = sorted(it for it in own - lent if is_to_turn(it))
    taken = {in_snake_case(it) for it in turning if "-" not in it}
    return {it: in_snake_case(it) + ("_lem" if "-" in it and in_snake_case(it) in taken else "") for it in turning}


def turned(text, rows):
    return TOKEN.sub(lambda m: rows.get(m[0], m[0]), text)


def turn_pages(root, rows):
    pages = [os.path.join(root, "README.md")] + [os.path.join(root, "docs", it) for it in sorted(os.listdir(os.path.join(root, "docs"))) if it.endswith(".md") and it != "PORT.md"]
    for path in pages:
        text = read(path)
        after = re.sub(r"`[^`\n]*`", lambda m: "`" + turned(m[0][1:-1], rows) + "`", text)
        if after != text:
            with open(path, "w", encoding="utf-8") as f:
                f.write(after)


def main():
    root = os.path.abspath(sys.argv[1]) if len(sys.argv) > 1 else os.path.dirname(os.path.dirname(os.path.abspath(__file__)))
    rows = table(root)
    met = collections.defaultdict(set)
    for old, new in rows.items():
        met[new].add(old)
    for new in sorted(it for it in met if len(met[it]) > 1):
        print(f"look: {' and '.join(sorted(met[new]))} fall together as {new}")
    for path in files(root):
        text = read(path)
        words = set(TOKEN.findall(text))
        for old in sorted(words & set(rows)):
            if rows[old] in words:
                print(f"look: {os.path.relpath(path, root)} has {rows[old]} beside {old}")
        after = turned(text, rows)
        if after != text:
            with open(path, "w", encoding="utf-8") as f:
                f.write(after)
    turn_pages(root, rows)
    print(f"{len(rows)} names")


main()
