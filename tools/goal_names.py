#!/usr/bin/env python3
"""Spells the names that Rattle makes, in the proof files of functions, as today's does: a name of the source keeps its underscores.

usage: python3 tools/goal_names.py [CRATE..]    at the top of the repository, after respell.py
"""
import os
import re
import sys

from respell import of_libraries

TOKEN = re.compile(r"(?<![\w'-])[\w']+(?:-[\w']+)+(?![\w'-])")
WORDS = ["in-ok", "in-err", "in-default", "overflow-add", "overflow-sub", "overflow-mul", "overflow-shl", "overflow-shr", "overflow-cast", "overflow-step", "nonzero-div", "nonzero-rem", "slice-bounds", "offset-bounds", "invariant-of", "from-residual", "from-le-bytes", "split-at-mut", "type-inv"]


def main():
    for crate in sys.argv[1:] or sorted(os.listdir("crates")):
        top = os.path.join("crates", crate)
        idents = set()
        for f in os.listdir(os.path.join(top, "src")):
            text = re.sub(r"//.*", "", open(os.path.join(top, "src", f), encoding="utf-8").read())
            idents |= set(re.findall(r"\b[a-z]\w*_\w+\b", text))
        turns = [(i.replace("_", "-"), i) for i in idents] + [(w, w.replace("-", "_")) for w in WORDS]
        turns.sort(key=lambda t: -len(t[0]))
        for folder, dirs, names in os.walk(os.path.join(top, "proofs")):
            for f in names:
                if f not in ("Answers.antt", "Invariants.antt"):
                    continue
                path = os.path.join(folder, f)
                text = open(path, encoding="utf-8").read()
                left = of_libraries(text)

                def one(m):
                    word = m.group()
                    if word in left:
                        return word
                    for old, new in turns:
                        word = re.sub(r"(?<![^-])" + re.escape(old) + r"(?![^-])", new, word)
                    return word

                new = TOKEN.sub(one, text)
                if new != text:
                    open(path, "w", encoding="utf-8").write(new)


main()
