#!/usr/bin/env python3
"""Spells the repository's own names as today's Rattle does: words in snake case, types in camel case.

usage: python3 tools/respell.py        at the top of the repository, once, after port.py

The names are those that .antt files define (definitions, lemmas, fields, constructors, local lemmas and `let` names) and the names of
clauses and ghost members in .rt files. Names that Rattle makes for goals keep their hyphens, and so do strings and comments.
It says which new spellings stood in the files before (they may fall together with another name).
"""
import os
import re
import sys

NAME = r"[A-Za-z_À-ɏͰ-Ͽ𝓐-𝔷][\w'₀-₉]*(?:-[\w'₀-₉]+)+"
TOKEN = re.compile(r"(?<![\w'₀-₉-])" + NAME + r"(?![\w'₀-₉-])")
# A name's own type is a goal's: Rattle made the name.
MADE = re.compile(r":\s*(?:need|needs|given|goal|goals|rules)\.")
# Spellings that another name has already.
OTHERWISE = {"Two-way": "BothWays", "bit-or": "bit_at_or", "bit-xor": "bit_at_xor"}


def files():
    for folder, dirs, names in os.walk("crates"):
        dirs[:] = sorted(d for d in dirs if d not in ("out", "must-fail", "data"))
        for f in sorted(names):
            if f.endswith((".antt", ".rt")):
                yield os.path.join(folder, f)


def spelt(name):
    if name in OTHERWISE:
        return OTHERWISE[name]
    if name[0].isupper():
        return "".join(w[0].upper() + w[1:] for w in name.split("-"))
    return name.replace("-", "_")


def code_of(path, line):
    """The line in parts: (text, is it code). Comments and strings are not."""
    sign = "--" if path.endswith(".antt") else "//"
    parts, at, quote = [], 0, False
    for m in re.finditer(r'"(?:[^"\\]|\\.)*"|' + sign + ".*", line):
        parts += [(line[at : m.start()], True), (m.group(), False)]
        at = m.end()
    return parts + [(line[at:], True)]


def code(path, line):
    return "".join(t for t, c in code_of(path, line) if c)


def own_names():
    """Names that stand alone, and names that stand behind a dot (fields, and definitions behind a module)."""
    plain, fields = set(), set()
    for path in files():
        record = None  # how far in the record stands whose fields these are
        for raw in open(path, encoding="utf-8"):
            line = code(path, raw)
            if path.endswith(".rt"):
                for m in re.finditer(r"\b(?:ensures\*?|requires\*?|ghost|law|invariant)\s+(" + NAME + r")\s*[:{]", line):
                    fields.add(m.group(1))
                continue
            far = len(line) - len(line.lstrip())
            if line.strip() and record is not None and far <= record:
                record = None
            if re.match(r"\s*(?:pub )?record [^{]", line):
                record = far
            m = re.match(r"\s*(?:pub |abbrev |unfoldable |record |data |opaque )*(" + NAME + r")(?=\s*[:({]|\s*$)", line)
            if m and not MADE.search(line) and "=" not in line[: m.end()]:
                plain.add(m.group(1))
                if record is not None and far > record:
                    fields.add(m.group(1))
            for m in re.finditer(r"(?:\blet|\bin let|\bas)\s+(" + NAME + r")\s*[:=,}]", line):
                plain.add(m.group(1))
    return plain, fields


def of_libraries(text):
    """The names that a file takes from a library: those stay."""
    names = set()
    for m in re.finditer(r"\buse ([\w.'+-]+)\.\{([^}]*)\}", text):
        parts = m.group(1).split(".")
        if not (parts[0] == "Rattle" and len(parts) > 1 and os.path.isdir(os.path.join("crates", parts[1]))):
            names |= {w.strip().split(" as ")[0] for w in m.group(2).split(",")}
    return names


def main():
    plain, fields = own_names()
    made = set()
    for path in files():
        for raw in open(path, encoding="utf-8"):
            line = code(path, raw)
            if MADE.search(line):
                made |= set(TOKEN.findall(line))
    both = sorted((plain | fields) & made)
    tokens = set()
    texts = {p: open(p, encoding="utf-8").read() for p in files()}
    for path, text in texts.items():
        for line in text.splitlines():
            tokens |= set(re.findall(r"[\w'₀-₉]+", re.sub(TOKEN, " ", code(path, line))))
    turned = {n: spelt(n) for n in plain | fields}
    for n in sorted(turned):
        if turned[n] in tokens:
            print(f"stood before: {n} -> {turned[n]}")
    seen = {}
    for n, s in turned.items():
        if s in seen:
            print(f"fall together: {n}, {seen[s]} -> {s}")
        seen[s] = n
    for n in both:
        print(f"also a goal's: {n}")

    def turn(text, left):
        def one(m):
            word, before = m.group(), text[: m.start()]
            if word in left:
                return word
            if before.endswith("."):
                module = re.search(r"(?:^|[^\w.'])Rattle\.[\w.'+-]*\.$", before)
                return turned[word] if word in fields or (module and word in plain) else word
            return turned.get(word, word)

        return TOKEN.sub(one, text)

    if "--dry" in sys.argv:
        return
    for path, text in texts.items():
        out, left = [], of_libraries(text)
        for line in text.splitlines(keepends=True):
            out.append("".join(turn(t, left) if c else t for t, c in code_of(path, line)))
        new = "".join(out)
        if new != text:
            with open(path, "w", encoding="utf-8") as f:
                f.write(new)
    print(f"{len(turned)} names")


if __name__ == "__main__":
    main()
