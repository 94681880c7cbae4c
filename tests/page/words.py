"""Holds page/words.json, the page's one table of words, to the bench's own strings and to docs/NUMBERS.md.

    words.py [--table FILE]    compares; --table: another table than page/words.json
    words.py --write           fills `means` and `next` of the numbers and statuses from docs/NUMBERS.md

Every text of the table outside of "page", "means" and "next" is a sentence of the bench: a whole line of one of its strings, without its
indent, its ** and the words in front of it, or its beginning up to a value where the text ends in a blank; three sentences of other sources
are looked for in the lessons' stored outputs, or in docs/BENCH.md. Every number, status and alarm of the bench stands in the table.
"""

import argparse
import json
import pathlib
import re
import sys

ROOT = pathlib.Path(__file__).resolve().parents[2]
SOURCES = [
    "bench_wording/src/*.rt", "bench_alarms/src/*.rt", "bench_requests/src/uploads.rt", "bench_plain/src/*.rt",
    "bench_exchange/src/replies.rt", "bench_exchange/src/frames.rt", "bench_exchange/src/session.rt", "bench_settings/src/*.rt",
]
# The summary at the end of a script.
SUMMARY = "shown.rt"
# Sentences of the bench's other sources.
ELSEWHERE = {"upload.since", "changes.page", "board.hex"}
LEADS = ("do: ", "look for: ", "wrong: ")
ESCAPES = {"n": "\n", "t": "\t", '"': '"', "\\": "\\", "\n": ""}


def strings(text):
    """The strings of a source, over line ends too, with their escapes read. A value in one is a %."""
    bare = re.sub(r"^\s*//.*$", "", text, flags=re.MULTILINE)
    for found in re.findall(r'"((?:[^"\\]|\\.)*)"', bare, flags=re.DOTALL):
        filled = re.sub(r"\{[^{}]*\}", "%", found)
        yield re.sub(r"\\(\n *|.)", lambda escape: ESCAPES[escape[1].rstrip(" ")], filled)


def bench_strings():
    """Each string of the bench with the name of its file."""
    for pattern in SOURCES:
        paths = sorted((ROOT / "crates").glob(pattern))
        if not paths:
            raise SystemExit(f"words: there is no source {pattern}")
        for path in paths:
            for text in strings(path.read_text(encoding="utf-8")):
                yield path.name, text


def sentences(text):
    """The lines of a string. A string that is cut at | has pieces."""
    return [line for piece in text.split("|") for line in piece.split("\n")]


def plain(line):
    """A line without indent and **."""
    return re.sub(r"^\*\* | \*\*$", "", line.strip())


def without_lead(line):
    """A line, the same without the word in front of it, and the name of a status that it begins with."""
    status = re.match(r"([A-Z]+_[A-Z_]+): ", line)
    return {line, *({status[1]} if status else ())} | {line[len(lead):].strip() for lead in LEADS if line.startswith(lead)}


def bench_sentences():
    return {form for _, text in bench_strings() for line in sentences(text) for form in without_lead(plain(line))} - {""}


def beginnings():
    """The beginnings of sentences that end before a value."""
    lines = [plain(line) for _, text in bench_strings() for line in sentences(text)]
    return {line[:value.start()].strip() for line in lines for value in re.finditer("%", line)} - {""}


def texts(table, path=()):
    """Every text of the table with the names that lead to it."""
    if isinstance(table, str):
        yield path, table
        return
    for name, value in table.items() if isinstance(table, dict) else enumerate(table):
        yield from texts(value, (*path, str(name)))


def bench_form(path, text, table):
    """How the bench says a text of the table: numbers and statuses with their number or name."""
    if path[0] == "numbers" and path[-1] == "words":
        return f"number {path[1]}, {text}"
    if path[0] == "statuses" and path[-1] == "words":
        return f"{table['statuses'][path[1]]['name']}: {text}"
    return text


def stored():
    """What the bench said in the lessons, and what is documented of it."""
    paths = [*sorted((ROOT / "lessons").glob("*.out")), ROOT / "docs/BENCH.md"]
    return "\n".join(path.read_text(encoding="utf-8") for path in paths)


def is_stored(text, outputs):
    return re.search(re.escape(text).replace("%", "[0-9]+"), outputs) is not None


def not_of_the_bench(table):
    known, begun, outputs = bench_sentences(), beginnings(), stored()
    for path, text in texts(table):
        if path[0] == "page" or path[-1] in ("means", "next"):
            continue
        for line in bench_form(path, text, table).split("\n"):
            place = ".".join(path)
            said = plain(line) in known or line.endswith(" ") and plain(line) in begun
            if not (is_stored(text, outputs) if place in ELSEWHERE else said):
                yield f"{place}: the bench does not say: {line}"


def missing_from_table(table):
    """The numbers, statuses and alarms of the bench that the table has not."""
    said = {plain(line) for path, text in texts(table) for line in bench_form(path, text, table).split("\n")}
    said |= {f"number {number}, {entry['words']}" for number, entry in table["numbers"].items()}
    for name, text in bench_strings():
        for line in sentences(text):
            numbered = re.match(r"number \d+, ", plain(line)) or re.match(r"[A-Z]+_[A-Z_]+: ", plain(line))
            alarm = re.fullmatch(r"\*\* .* \*\*", line.strip()) and name != SUMMARY
            if (numbered or alarm) and plain(line) not in said:
                yield f"the table does not have: {plain(line)}"


def rows(heading):
    """The rows of the table under a heading of docs/NUMBERS.md: number, and its last two cells."""
    section = (ROOT / "docs/NUMBERS.md").read_text(encoding="utf-8").split(f"\n## {heading}\n")[1].split("\n## ")[0]
    for line in section.splitlines():
        if re.match(r"\| \d+ \|", line):
            cells = [cell.strip().replace("**", "").replace("`", "") for cell in line.strip("|").split("|")]
            yield cells[0], {"means": cells[-2], "next": cells[-1]}


def documented():
    return {"numbers": dict(rows("Numbers")), "statuses": dict(rows("Statuses"))}


def not_as_documented(table):
    for kind, entries in documented().items():
        if sorted(entries) != sorted(table[kind]):
            yield f"{kind}: docs/NUMBERS.md has others: {sorted(set(entries) ^ set(table[kind]))}"
            continue
        for number, cells in entries.items():
            for name, text in cells.items():
                if table[kind][number].get(name) != text:
                    yield f"{kind}.{number}.{name}: not as in docs/NUMBERS.md: {text}"


def write(path):
    table = json.loads(path.read_text(encoding="utf-8"))
    for kind, entries in documented().items():
        for number, cells in entries.items():
            table[kind][number].update(cells)
    path.write_text(json.dumps(table, ensure_ascii=False, indent=2) + "\n", encoding="utf-8")


def main():
    parser = argparse.ArgumentParser()
    parser.add_argument("--write", action="store_true")
    parser.add_argument("--table", type=pathlib.Path, default=ROOT / "page/words.json")
    options = parser.parse_args()
    if options.write:
        write(options.table)
        return
    table = json.loads(options.table.read_text(encoding="utf-8"))
    wrong = [*not_of_the_bench(table), *missing_from_table(table), *not_as_documented(table)]
    for text in wrong:
        print(f"words: {text}", file=sys.stderr)
    if wrong:
        sys.exit(1)
    print(f"words: {len(list(texts(table)))} texts agree with the bench and with docs/NUMBERS.md")


main()
