"""Sees that modules export the calls of a header, with its types.

    prototypes.py HEADER MODULE..    MODULE: LLVM's text

A pointer is ptr, uint64_t is i64, uint32_t is i32, and every call gives i32. Status 1 at a difference.
"""

import re
import sys

TYPES = {"uint64_t": "i64", "uint32_t": "i32"}


def declared(text):
    """Call: the types of its parameters, by the header."""
    text = re.sub(r"/\*.*?\*/", "", text, flags=re.S)
    for name, parameters in re.findall(r"^uint32_t (childbus_\w+)\(([^)]*)\);", text, re.M):
        yield name, ["ptr" if "*" in word else TYPES.get(word.split()[0], word) for word in parameters.split(",")]


def exported(text):
    """Call: the types of its parameters, by a module."""
    for line in re.findall(r"^define (?!internal ).*", text, re.M):
        found = re.fullmatch(r"define noundef i32 @(\w+)\(([^)]*)\) #\d+ \{", line)
        if not found:
            raise SystemExit(f"prototypes: no call of C: {line}")
        yield found[1], [re.sub(r" noundef %a\d+$", "", word.strip()) for word in found[2].split(",")]


def read(path):
    with open(path, encoding="utf-8") as file:
        return file.read()


def main():
    header, *modules = sys.argv[1:]
    wanted = dict(declared(read(header)))
    had = {}
    for module in modules:
        for name, types in exported(read(module)):
            if name in had:
                raise SystemExit(f"prototypes: {name} is in two modules")
            had[name] = types
    for name in sorted(wanted.keys() | had.keys()):
        if wanted.get(name) != had.get(name):
            raise SystemExit(f"prototypes: {name}: the header has {wanted.get(name)}, the module {had.get(name)}")


main()
