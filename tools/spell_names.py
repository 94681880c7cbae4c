#!/usr/bin/env python3
"""Brings the definitions and lemmas of specs/ and proofs/ to snake case, by the table beside this script (names.tsv: old, a tab, new).

usage: python3 tools/spell_names.py [FOLDER]       FOLDER is the top of the repository, . if none is given

Whole words turn, and no others: in .antt files in the code and in the code spans of comments, in .rt files outside strings (there only names
with a capital inside, which no item of the source has), in must-fail edits as in the file that they edit, in .md files in code spans.
In a Proof.antt a step of the code keeps its name (`c.before.well-formed.ensures`). Run it once, after port.py: a few new names were old names of others.
"""
import os
import re
import sys

HERE = os.path.dirname(os.path.realpath(__file__))
WORD = re.compile(r"[^\s(){}.;,@\"«»`]+")
STEP = re.compile(r"\.(ensures|requires|result|given|new|exit|invariant|branch|is)\b")
COMMENT = re.compile(r"(?:(?<=\s)|^)--[^\n]*", re.M)
SPAN = re.compile(r"`[^`\n]+`")
STRING = re.compile(r'b?"(?:\\.|[^"\\])*"', re.S)


def table():
    with open(os.path.join(HERE, "names.tsv"), encoding="utf-8") as f:
        return dict(line.rstrip("\n").split("\t") for line in f if line.strip())


def turn(text, names, proof=False):
    def one(m):
        word = m[0]
        bare = word.rstrip("'")
        new = names.get(word) or (names[bare] + word[len(bare):] if bare in names else None)
        if new is None:
            return word
        if proof and "-" in word and text[m.start() - 1 : m.start()] == "." and STEP.match(text, m.end()):
            return word
        return new

    return WORD.sub(one, text)


def outside(pattern, text, inner, outer):
    out, at = [], 0
    for m in pattern.finditer(text):
        out += [outer(text[at : m.start()]), inner(m[0])]
        at = m.end()
    return "".join(out + [outer(text[at:])])


def antt(text, names, proof=False):
    spans = lambda s: SPAN.sub(lambda m: turn(m[0], names), s)
    return outside(COMMENT, text, spans, lambda s: turn(s, names, proof))


def source(text, names):
    return outside(STRING, text, lambda s: s, lambda s: turn(s, {a: b for a, b in names.items() if "-" not in a and "_" not in a}))


def edit(text, names):
    kind = ""
    out = []
    for line in text.split("\n"):
        if line.startswith("file:"):
            kind = line.rsplit(".", 1)[-1].strip()
        elif line.startswith(("old:", "new:")):
            line = line[:4] + (antt if kind == "antt" else source)(line[4:], names)
        out.append(line)
    return "\n".join(out)


def page(text, names):
    """Of a page: words of the bench's scripts are spelled like lemmas, and stay."""
    names = {a: b for a, b in names.items() if a not in ("set-address", "reset-address", "i2c-read")}
    return SPAN.sub(lambda m: turn(m[0], names), text)


def main():
    top = sys.argv[1] if len(sys.argv) > 1 else "."
    names = table()
    for folder, dirs, files in os.walk(top):
        dirs[:] = [d for d in dirs if d not in (".git", "out", "target", "node_modules")]
        for file in files:
            path = os.path.join(folder, file)
            inside = f"{os.sep}crates{os.sep}" in os.path.abspath(path)
            if not (file.endswith(".md") or inside and file.endswith((".antt", ".rt", ".edit"))):
                continue
            with open(path, encoding="utf-8") as f:
                old = f.read()
            if file.endswith(".antt"):
                new = antt(old, names, file == "Proof.antt")
            elif file.endswith(".rt"):
                new = source(old, names)
            elif file.endswith(".edit"):
                new = edit(old, names)
            else:
                new = page(old, names)
            if new != old:
                with open(path, "w", encoding="utf-8") as f:
                    f.write(new)


main()
