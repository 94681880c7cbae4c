"""Prints, for each exported call of some objects, the code and constants that it reaches and the stack that it takes at most, in bytes.

    sizes.py OBJDUMP OBJECT..    OBJDUMP: llvm-objdump; beside each OBJECT stands clang's .su file

Code and constants are those of the call and of all that it calls within its object. Stack is the deepest chain of frames there. What the
library calls besides (memcpy and the like) is named and is not in the figures.
"""

import re
import subprocess
import sys


def lines(*words):
    return subprocess.run(words, check=True, capture_output=True, text=True).stdout.splitlines()


class Object:
    def __init__(self, objdump, path):
        self.code, self.constants, self.exported, self.needed, self.section = {}, {}, [], set(), {}
        for line in lines(objdump, "-h", path):
            if found := re.fullmatch(r" *\d+ (\S+) +([0-9a-f]+) [0-9a-f]+ (?:DATA|BSS)", line):
                self.add_data(found[1], int(found[2], 16))
        for line in lines(objdump, "-t", path):
            if found := re.fullmatch(r"[0-9a-f]+ (.{7}) (\S+)\t([0-9a-f]+) (?:\.hidden )?(\S+) *", line):
                self.add_symbol(found[1], found[2], int(found[3], 16), found[4])
        self.refers = dict(self.references(objdump, path))
        self.frames = dict(self.stack_frames(path.removesuffix(".o") + ".su"))

    def add_data(self, section, size):
        if not section.startswith((".rodata", ".srodata", "DATA")):
            raise SystemExit(f"sizes: {section} is not of constants alone")
        self.constants[section] = size

    def add_symbol(self, flags, section, size, name):
        if section == "*UND*" and name != "__stack_pointer":
            self.needed.add(name)
        elif "F" in flags:
            self.code[name] = size
            if "g" in flags:
                self.exported.append(name)
        else:
            self.section[name] = section

    def references(self, objdump, path):
        """Each function, and the functions and sections that its code refers to."""
        names = set()
        for line in lines(objdump, "-d", "-r", path):
            if (found := re.fullmatch(r"[0-9a-f]+ <(.+)>:", line)) and found[1] in self.code:
                names = set()
                yield found[1], names
            elif found := re.fullmatch(r"\s+[0-9a-f]+:\s+R_\w+\s+(\S+?)(?:[+-](?:0x)?[0-9a-f]+)?\s*", line):
                names.add(self.section.get(found[1], found[1]))

    def stack_frames(self, path):
        with open(path, encoding="ascii") as file:
            for line in file:
                place, size, kind = line.rstrip("\n").split("\t")
                if kind != "static":
                    raise SystemExit(f"sizes: the frame of {place} has no fixed size")
                yield place.split(":", 1)[1], int(size)

    def reached(self, name, seen):
        """The functions and sections that a function reaches, itself among them."""
        if name not in seen:
            seen.add(name)
            for other in self.refers.get(name, ()):
                self.reached(other, seen)
        return seen

    def stack(self, name, above=()):
        """The deepest chain of frames from a function on."""
        if name in above:
            raise SystemExit(f"sizes: {name} calls itself")
        called = [other for other in self.refers[name] if other in self.code]
        return self.frames[name] + max((self.stack(other, (*above, name)) for other in called), default=0)


def main():
    objects = [Object(sys.argv[1], path) for path in sys.argv[2:]]
    print("| call | code | constants | stack |\n|---|---:|---:|---:|")
    for item in objects:
        for name in sorted(item.exported):
            names = item.reached(name, set())
            code, constants = (sum(size for other, size in sizes.items() if other in names) for sizes in (item.code, item.constants))
            print(f"| `{name}` | {code} | {constants} | {item.stack(name)} |")
    print(f"| all | {sum(sum(item.code.values()) for item in objects)} | {sum(sum(item.constants.values()) for item in objects)} | |")
    print("needed besides:", ", ".join(sorted(set().union(*(item.needed for item in objects)))) or "nothing")


main()
