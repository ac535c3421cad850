#!/usr/bin/env python3
"""Brings this repository's own definitions, lemmas and locals of specs/, proofs/ and clauses to snake case, types to camel case.

Run once at the top of the repository, after the toolchain's port script. Names of the standard library, names that the
toolchain makes, source names, strings and comments keep their spelling. In README.md and docs/ it turns what stands in backticks.
"""

import os
import re

NAME = r"[A-Za-z0-9_'≢≡]+(?:-[A-Za-z0-9_'≢≡]+)+"
WORD = re.compile(r"(?<![\w'≢≡◌-])" + NAME + r"(?![\w'≢≡◌-])")
# names that the toolchain makes, in the answers and invariants of a function
MADE = re.compile(r"^(loop-.*|invariant-.*|returns-.*|in-.*|then-.*|else-.*|overflow-.*|on-requires|run-requires|rouse-requires|wake-requires|held-index)$")
# names of the standard library that carry a dash there too
LIBRARY_USE = re.compile(r"(?:ghost )?use (?:Rattle\.std|mir|native)\.[\w.]+\.\{(.*?)\}", re.S)
ALIAS = re.compile(r" as (" + NAME + r")(?=[,}])")


def files():
    for folder, dirs, names in sorted(os.walk("crates")):
        dirs[:] = sorted(d for d in dirs if d != "out")
        for name in sorted(names):
            if name.endswith((".antt", ".rt")):
                yield os.path.join(folder, name)


def read(path):
    with open(path, encoding="utf-8") as f:
        return f.read()


def is_lemma_file(path):
    """A file of specs/, or one that stands right in proofs/: no name in it is made by the toolchain."""
    return path.endswith(".antt") and os.path.basename(os.path.dirname(path)) in ("specs", "proofs")


def without_comment(line, mark):
    at = line.find(mark)
    return (line, "") if at < 0 else (line[:at], line[at:])


def camel_or_snake(name):
    parts = name.split("-")
    if name[0].isupper():
        return "".join(p[0].upper() + p[1:] for p in parts)
    return "_".join(parts)


def main():
    library = set()
    for path in files():
        for found in LIBRARY_USE.finditer(read(path)):
            library.update(w.strip().split(" as ")[0] for w in found.group(1).split(","))
    own, words = set(), set()
    for path in files():
        for line in read(path).split("\n"):
            text = without_comment(line, "--" if path.endswith(".antt") else "//")[0]
            words.update(re.findall(r"[\w']+", text))
            for found in WORD.findall(text) if path.endswith(".antt") else ALIAS.findall(text):
                if found in library or (not is_lemma_file(path) and MADE.match(found)):
                    continue
                own.add(found)
    turned = {name: camel_or_snake(name) for name in own}
    falls = [(a, b) for a, b in sorted(turned.items()) if b in words]
    for a, b in falls:
        print(f"look: {a} becomes {b}, a word that stands already")
    twice = sorted(turned.values())
    for a, b in zip(twice, twice[1:]):
        if a == b:
            print(f"look: two names become {a}")

    def turn(text):
        return WORD.sub(lambda m: turned.get(m.group(0), m.group(0)), text)

    count = 0
    for path in files():
        out = []
        for line in read(path).split("\n"):
            if path.endswith(".antt"):
                text, comment = without_comment(line, "--")
                made = turn(text) + comment
            elif line.strip().startswith(("ghost ", "requires ", "ensures ")):
                text, comment = without_comment(line, "//")
                made = turn(text) + comment
            else:
                made = line
            count += made != line
            out.append(made)
        with open(path, "w", encoding="utf-8") as f:
            f.write("\n".join(out))
    pages = ["README.md"] + [os.path.join(d, n) for d, _, names in os.walk("docs") for n in sorted(names) if n.endswith(".md")]
    for path in pages:
        text = read(path)
        made = re.sub(r"`[^`\n]*`", lambda m: turn(m.group(0)), text)
        if made != text:
            with open(path, "w", encoding="utf-8") as f:
                f.write(made)
    print(f"{len(turned)} names, {count} lines")


main()
