#!/usr/bin/env python3
"""Spells definitions and fields of specs/ that are joined by dashes in snake case: `codes-after` becomes `codes_after`.

usage: tools/respell_fields.py [FOLDER]    after tools/respell.py; FOLDER is the repository's top, by default the one that holds tools/

It reads .rt, .antt and .edit files below crates/, tests/definitions/Compare.antt.in and docs/*.md. A name whose snake form is another's
already keeps its dash (KEPT). Lemmas of proofs/ keep theirs: there a dash joins the names of what they speak of. Lemmas on what is now
called `get_or` are named after it.
"""

import glob
import os
import re
import sys

ROOT = sys.argv[1] if len(sys.argv) > 1 else os.path.dirname(os.path.dirname(os.path.realpath(__file__)))
NAME = r"[a-z][\w']*(?:-[\w']+)+"
KEPT = {"body-at", "first-element", "in-box", "node-count"}


def names():
    found = set()
    for path in glob.glob(os.path.join(ROOT, "crates/*/specs/*.antt")):
        with open(path, encoding="utf-8") as f:
            text = re.sub(r"--.*", "", f.read())
        found.update(re.findall(rf"(?m)^\s*(?:abbrev |unfoldable |pub )*({NAME})(?: [\w' -]+)* :(?:\s|$)", text))
        for line in re.findall(r"(?m)^\s*pub ((?:[\w'-]+ )+):", text):
            found.update(w for w in line.split() if "-" in w)
    return found - KEPT


def main():
    each = "|".join(sorted((re.escape(n) for n in names()), key=len, reverse=True))
    word = re.compile(rf"(?<![\w'-])(?:{each})(?![\w'-])")
    files = [os.path.join(ROOT, "tests/definitions/Compare.antt.in")] + glob.glob(os.path.join(ROOT, "docs/*.md"))
    for folder, dirs, found in os.walk(os.path.join(ROOT, "crates")):
        dirs[:] = [d for d in dirs if d != "out"]
        files += [os.path.join(folder, n) for n in found if n.endswith((".rt", ".antt", ".edit"))]
    for path in files:
        with open(path, encoding="utf-8") as f:
            old = f.read()
        new = word.sub(lambda m: m.group(0).replace("-", "_"), old)
        new = new.replace("get_d_map", "get_or-map_below").replace("get_d-", "get_or-")
        if new != old:
            with open(path, "w", encoding="utf-8") as f:
                f.write(new)


main()
