#!/usr/bin/env python3
"""Spells this repository's own definitions and lemmas in snake case, by names.tsv beside this file.

usage: python3 tools/port/spell.py        at the top of the repository, once, right after the kit's port.py

It turns contracts, specs/, proofs/ and the must-fail edits of specs/. A word turns where it stands whole. The kit's own script for such tables does the work.
"""
import os
import re
import sys

HERE = os.path.dirname(os.path.realpath(__file__))
sys.dont_write_bytecode = True
sys.path.insert(0, "/opt/rattle/port/notes/2026-11-18-names-are-in-snake-case")
import snake  # noqa: E402

TABLE = os.path.join(HERE, "names.tsv")


def edits(table):
    """The pairs of an edit of a file of specs/."""
    word = re.compile(r'[^\s(){}.;,@"«»]+')
    for folder, _, files in os.walk("crates"):
        if os.path.basename(folder) != "must-fail":
            continue
        for name in sorted(files):
            path = os.path.join(folder, name)
            with open(path, encoding="utf-8") as f:
                text = f.read()
            if not re.search(r"(?m)^file: (specs|proofs)/", text):
                continue
            new = word.sub(lambda m: table.get(m[0], m[0]), text)
            if new != text:
                with open(path, "w", encoding="utf-8") as f:
                    f.write(new)


snake.main(["--table", TABLE, "--only", "antt,rt", "crates"])
with open(TABLE, encoding="utf-8") as f:
    edits(dict(line.rstrip("\n").split("\t") for line in f))
