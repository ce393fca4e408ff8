#!/usr/bin/env python3
"""Respells definitions and lemmas by the table beside this script: an old name, a tab, the new name.

usage: python3 tools/respell.py [FOLDER]     FOLDER is the repository (default: where it is run)

The crate hex, whose name a library of the kit has, becomes hex_text. Whole words alone turn: in specs and
proofs, in the clauses and ghost lines of sources, in the code spans of comments there, and in the code spans of
docs and of the README. Strings stay, and so does a name behind a dot, unless it is a field of a record here, or
a module of Rattle's or an imported module stands before the dot.
A second run changes nothing.
"""

import os
import re
import sys

HERE = os.path.dirname(os.path.realpath(__file__))
WORD = re.compile(r"[^\s(){}.;,@\"«»`]+")
ALIAS = re.compile(r"\buse\s+[\w.·-]+\s+as\s+([\w-]+)")
QUALIFIED = re.compile(r"([\w·.]+)\.$")
FIELDS = ("few-entries", "few-pairs", "first-took", "second-took")
CRATE = ("hex", "hex_text")


def table():
    with open(os.path.join(HERE, "respell.tsv"), encoding="utf-8") as f:
        return dict(line.rstrip("\n").split("\t") for line in f if line.strip())


def turn_words(text, names, kept, aliases):
    """The text with each whole word of the table turned, but for those kept and for members behind a dot."""
    out, at = [], 0
    for m in WORD.finditer(text):
        word = m.group()
        if word not in names or word in kept:
            continue
        before = text[max(0, m.start() - 120) : m.start()]
        if before.endswith(".") and word not in FIELDS:
            head = QUALIFIED.search(before)
            first = head.group(1).split(".")[0] if head else ""
            if first != "Rattle" and first not in aliases:
                continue
        out.append(text[at : m.start()])
        out.append(names[word])
        at = m.end()
    out.append(text[at:])
    return "".join(out)


def turn_spans(text, names):
    """The text with the names in its code spans turned."""
    return re.sub(r"`[^`\n]+`", lambda m: turn_words(m.group(), names, (), ()), text)


def antt(text, names):
    aliases = set(ALIAS.findall(text))
    # A goal's name is made from the source: it stays, also where a definition has the same spelling.
    kept = set(re.findall(r"(?m)^(?:pub )?(\S+) : goal\.", text))
    return turn_words(text, names, kept, aliases)


RUST = re.compile(r'//[^\n]*|/\*.*?\*/|[bc]?"(?:\\.|[^"\\])*"|b?\'(?:\\.|[^\'\\])\'', re.S)


def rust(text, names):
    aliases = set(ALIAS.findall(text))
    out, at = [], 0
    for m in RUST.finditer(text):
        out.append(turn_words(text[at : m.start()], names, (), aliases))
        quiet = m.group()
        out.append(turn_spans(quiet, names) if quiet.startswith("//") else quiet)
        at = m.end()
    out.append(turn_words(text[at:], names, (), aliases))
    return "".join(out)


def rename_crate(root):
    """Moves the crate to its new name, and turns the paths and the lines that name it."""
    old, new = CRATE
    folder = os.path.join(root, "crates")
    if not os.path.isdir(os.path.join(folder, old)):
        return
    os.rename(os.path.join(folder, old), os.path.join(folder, new))
    paths = [p for p in files(root) if p.endswith((".antt", ".rt"))] + [os.path.join(root, "crates.txt")]
    for path in paths:
        with open(path, encoding="utf-8") as f:
            text = f.read()
        if path.endswith("crates.txt"):
            turned = re.sub(rf"\b{old}\b(?=[: ])", new, text)
        else:
            turned = re.sub(rf"\b{old}::", f"{new}::", text.replace(f"Rattle.{old}.", f"Rattle.{new}."))
        if turned != text:
            with open(path, "w", encoding="utf-8") as f:
                f.write(turned)


def files(root):
    for folder, dirs, names in os.walk(os.path.join(root, "crates")):
        dirs[:] = sorted(d for d in dirs if d != "out")
        yield from (os.path.join(folder, n) for n in sorted(names) if n.endswith((".antt", ".rt")))
    docs = os.path.join(root, "docs")
    yield from (os.path.join(docs, n) for n in sorted(os.listdir(docs)) if n.endswith(".md") and n != "PORT.md")
    yield os.path.join(root, "README.md")


def main(root):
    names, turned = table(), 0
    rename_crate(root)
    for path in files(root):
        with open(path, encoding="utf-8") as f:
            old = f.read()
        if path.endswith(".antt"):
            new = antt(old, names)
        elif path.endswith(".rt"):
            new = rust(old, names)
        else:
            new = turn_spans(old, names)
        if new != old:
            turned += 1
            with open(path, "w", encoding="utf-8") as f:
                f.write(new)
    print(f"respell: {turned} files")


if __name__ == "__main__":
    main(sys.argv[1] if len(sys.argv) > 1 else ".")
