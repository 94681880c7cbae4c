"""Code, constants and stack of each call of childbus.h by target, as two tables.

    figures.py FOLDER WORD TARGET..    FOLDER: for each TARGET what scripts/firmware printed (TARGET.sizes), and the stack in use
                                       (TARGET.fixed.stack, TARGET.alarms.stack); WORD: write or compare

compare prints them, and sees that docs/BENCHMARK.md has the first; write puts both there. The stack in use may exceed the deepest chain of
frames by what memcpy, memset and divisions take, and by no more.
"""

import re
import sys

PAGE = "docs/BENCHMARK.md"
BEGIN, MIDDLE, END = (f"<!-- targets: {word} -->" for word in ("begin", "in use", "end"))
NEEDED = 64


def sizes(path):
    """Call: code, constants, stack."""
    with open(path, encoding="ascii") as file:
        return {found[1]: tuple(map(int, found.groups()[1:])) for line in file
                if (found := re.fullmatch(r"\| `(childbus_\w+)` \| (\d+) \| (\d+) \| (\d+) \|\n", line))}


def in_use(*paths):
    """Call: the deepest use of the stack in any of the files."""
    deepest = {}
    for path in paths:
        with open(path, encoding="ascii") as file:
            for name, used in (line.split() for line in file):
                deepest[name] = max(int(used), deepest.get(name, 0))
    return deepest


def header(path):
    with open(path, encoding="ascii") as file:
        return re.findall(r"^uint32_t (childbus_\w+)\(", file.read(), re.M)


def table(columns, rows):
    lines = [f"| {' | '.join(columns)} |", f"|---|{'---:|' * (len(columns) - 1)}"]
    return "\n".join(lines + [f"| {' | '.join(map(str, row))} |" for row in rows]) + "\n"


def main():
    folder, word, *targets = sys.argv[1:]
    calls = header("include/childbus.h")
    built = {target: sizes(f"{folder}/{target}.sizes") for target in targets}
    used = {target: in_use(f"{folder}/{target}.fixed.stack", f"{folder}/{target}.alarms.stack") for target in targets}
    for target in targets:
        for call in calls:
            if call not in built[target] or call not in used[target]:
                raise SystemExit(f"{target}: no {call}, or no case that calls it")
            if used[target][call] > built[target][call][2] + NEEDED:
                raise SystemExit(f"{target}: {call} used {used[target][call]} bytes of stack, its frames have {built[target][call][2]}")
    columns = [f"{target}: {what}" for target in targets for what in ("code", "stack")]
    first = table(["call"] + columns, [[f"`{call}`"] + [figure for target in targets for figure in
                  (built[target][call][0] + built[target][call][1], built[target][call][2])] for call in calls])
    second = table(["call"] + targets, [[f"`{call}`"] + [used[target][call] for target in targets] for call in calls])
    in_words = "Stack in use in the fixed cases, bytes; memcpy, memset and divisions included, the call's own arguments not:\n"
    print(f"Code and constants that a call reaches, and its deepest chain of frames, bytes:\n\n{first}\n{in_words}\n{second}")

    with open(PAGE, encoding="utf-8") as file:
        page = file.read()
    before, rest = page.split(BEGIN + "\n")
    part, after = rest.split(END + "\n")
    if word == "write":
        with open(PAGE, "w", encoding="utf-8") as file:
            file.write(f"{before}{BEGIN}\n{first}{MIDDLE}\n\n{in_words}\n{second}{END}\n{after}")
    elif part.split(MIDDLE + "\n")[0] != first:
        raise SystemExit(f"{PAGE} has other figures; tests/targets/run --write puts these there")


main()
