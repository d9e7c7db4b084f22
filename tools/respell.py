#!/usr/bin/env python3
"""Respells the repository's own names as the present Rattle spells them: words in snake case, types in camel case.

Run once, at the top, after the kit's port.py. The names are those of respelled.tsv beside this file. In sources, definitions, lemmas and
must-fail edits each whole name is respelled; in README.md and docs/ those between backticks alone. In an edit of specs/ a projection is
written tight and without parentheses, and a prime is an apostrophe, as port.py has them in the files themselves. It proves nothing: `rt check` decides.
"""

import os
import re

TOP = os.path.dirname(os.path.dirname(os.path.realpath(__file__)))
NAME = re.compile(r"[^\s(){}\[\],;.:\"`]+")
TICKED = re.compile(r"`[^`\n]*`")


def table():
    with open(os.path.join(TOP, "tools", "respelled.tsv"), encoding="utf-8") as f:
        rows = [line.rstrip("\n").split("\t") for line in f if not line.startswith("#")]
    own = {old: new for who, old, new in rows if who == "own"}
    return own, own | {old: new for who, old, new in rows if who == "port"}


def respelled(text, names):
    return NAME.sub(lambda m: names.get(m.group(0), m.group(0)), text)


def edit(text, names):
    text = respelled(text, names)
    if "file: specs/" in text or "file: proofs/" in text:
        text = re.sub(r"(?<=[\w₀-₉)]) \.(?=[a-z0-9])", ".", text).replace("′", "'")
        text = re.sub(r"\((\w+(?:\.\w+)+)\)", r"\1", text)
    return text


def files():
    for folder, dirs, names in os.walk(os.path.join(TOP, "crates")):
        dirs[:] = sorted(d for d in dirs if d != "out")
        yield from (os.path.join(folder, n) for n in sorted(names))
    for folder, _, names in os.walk(os.path.join(TOP, "docs")):
        yield from (os.path.join(folder, n) for n in sorted(names))
    yield os.path.join(TOP, "README.md")


def main():
    own, every = table()
    changed = 0
    for path in files():
        if not path.endswith((".antt", ".rt", ".edit", ".md")):
            continue
        with open(path, encoding="utf-8") as f:
            text = f.read()
        if path.endswith((".antt", ".rt")):
            new = respelled(text, own)
        elif path.endswith(".edit"):
            new = edit(text, every)
        else:
            new = TICKED.sub(lambda m: respelled(m.group(0), every), text)
        if new != text:
            changed += 1
            with open(path, "w", encoding="utf-8") as f:
                f.write(new)
    print(f"respell: {changed} files changed")


if __name__ == "__main__":
    main()
