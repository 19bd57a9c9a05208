#!/usr/bin/env python3
"""Spells the repository's own definitions and lemmas in snake case, as the kit does: `sheetOf` becomes `sheet_of`.

usage: tools/respell.py [FOLDER]    after the kit's port.py, once; FOLDER is the repository's top, by default the one that holds tools/

It reads .rt, .antt and .edit files below crates/, and tests/definitions/Compare.antt.in and docs/*.md, and respells each word that
begins in lower case and goes on with a capital. Types and facts keep their capitals. Two lemmas that would then have the name of
what they speak of get `_lem`, before that.
"""

import os
import re
import sys

ROOT = sys.argv[1] if len(sys.argv) > 1 else os.path.dirname(os.path.dirname(os.path.realpath(__file__)))
WORD = re.compile(r"(?<![\w'.\\/])[a-z][a-z0-9_']*[A-Z][\w']*|(?<=[.])[a-z][a-z0-9_']*[A-Z][\w']*")
LEMMAS = [
    ("node_end", ["laws/proofs/Nodes.antt", "laws/proofs/Children.antt", "laws/proofs/Shapes.antt", "tree/proofs/Classes.antt", "tree/proofs/Judging.antt"]),
    ("point_at", ["domain/proofs/Bodying.antt", "text/proofs/Variables.antt", "evaluate/proofs/Owning.antt", "domain/proofs/inside/element_inside/Proof.antt"]),
]


def snake(word):
    return re.sub(r"(?<=[a-z0-9'])([A-Z])", lambda m: "_" + m.group(1).lower(), word)


def respelled(text):
    return WORD.sub(lambda m: snake(m.group(0)), text)


def rewrite(path, turn):
    with open(path, encoding="utf-8") as f:
        old = f.read()
    new = turn(old)
    if new != old:
        with open(path, "w", encoding="utf-8") as f:
            f.write(new)


def main():
    crates = os.path.join(ROOT, "crates")
    for lemma, files in LEMMAS:
        for name in files:
            rewrite(os.path.join(crates, name), lambda t: re.sub(rf"(?<![\w.'-]){lemma}(?![\w.'-])", lemma + "_lem", t))
    for folder, dirs, files in os.walk(crates):
        dirs[:] = [d for d in dirs if d != "out"]
        for name in files:
            path = os.path.join(folder, name)
            if name.endswith((".rt", ".antt", ".edit")):
                rewrite(path, respelled)
    pages = lambda t: respelled(t.replace("libFuzzer", "LibFuzzer").replace("`getD ", "`get_or ").replace("negℤ", "neg_ℤ")).replace("LibFuzzer", "libFuzzer")
    rewrite(os.path.join(ROOT, "tests/definitions/Compare.antt.in"), respelled)
    for name in os.listdir(os.path.join(ROOT, "docs")):
        if name.endswith(".md"):
            rewrite(os.path.join(ROOT, "docs", name), pages)


main()
