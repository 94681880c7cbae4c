#!/usr/bin/env python3
"""What the documents cite is there.

PROTOCOL.md: each cited definition stands in the file that it is cited from, and each definition of rules, ledger and demands is cited.
README.md and docs/: each link and each path leads to a file; the README's map has just the crates of crates.txt; the count of lines that must be believed is right.
"""
import glob
import os
import re
import sys

PATH = re.compile(r"[a-z_0-9]+/(specs|src)/\w+")
NAME = re.compile(r"[A-Za-z][\w-]*")
faults = []


def fault(text):
    faults.append(text)
    print(text)


def text_of(path):
    with open(path, encoding="utf-8") as f:
        return f.read()


def defined(path):
    """The names that a file of definitions or of Rattle declares; None if there is no such file."""
    if os.path.exists(f"crates/{path}.antt"):
        text = text_of(f"crates/{path}.antt")
        names = re.findall(r"^ *(?:unfoldable |abbrev )?pub (?:record |data )?([A-Za-z][\w-]*)", text, re.M)
        return set(names) | set(re.findall(r"^  ([A-Z]\w*) :", text, re.M))
    if os.path.exists(f"crates/{path}.rt"):
        text = text_of(f"crates/{path}.rt")
        names = re.findall(r"^ *pub (?:enum |fn |struct |const )?([A-Za-z]\w*)", text, re.M)
        return set(names) | set(re.findall(r"^ {4}([A-Z]\w*)", text, re.M))
    return None


def is_function(name):
    crate, function = name.split("::")[0], name.split("::")[-1]
    if crate == "State":
        crate = "state"
    return any(re.search(rf"pub (fn|const) {function}\b", text_of(f)) for f in glob.glob(f"crates/{crate}/src/*.rt"))


def paragraphs(text):
    """Lines, with those that go on joined to the one before."""
    units = []
    for line in text.split("\n"):
        goes_on = units and units[-1] and not units[-1].startswith(("#", "|", "Definitions:")) and line and not line.startswith(("#", "- ", "|", "Definitions:"))
        if goes_on:
            units[-1] += " " + line.strip()
        else:
            units.append(line)
    return units


def check_protocol():
    cited = {}
    section = []
    for unit in paragraphs(text_of("docs/PROTOCOL.md")):
        words = re.findall(r"`([^`]+)`", unit)
        if unit.startswith("## "):
            section = []
        files = list(section)
        for word in words:
            if PATH.fullmatch(word):
                if defined(word) is None:
                    fault(f"PROTOCOL.md: no file {word}")
                files = files + [word] if unit.startswith("Definitions:") else [word]
            elif "::" in word:
                if not is_function(word):
                    fault(f"PROTOCOL.md: no function {word}")
            elif NAME.fullmatch(word):
                found = [f for f in files if word in (defined(f) or ())]
                if not found:
                    fault(f"PROTOCOL.md: no {word} in {', '.join(files)}")
                for f in found:
                    cited.setdefault(f, set()).add(word)
        if unit.startswith("Definitions:"):
            section = files
    for crate in ("rules", "ledger", "demands"):
        for path in sorted(glob.glob(f"crates/{crate}/specs/*.antt")):
            name = path[len("crates/"):-len(".antt")]
            text = text_of(path)
            heads = set(re.findall(r"^ *(?:unfoldable|abbrev) pub ([A-Za-z][\w-]*)", text, re.M)) | set(re.findall(r"^pub (?:record|data) (\w+)", text, re.M))
            for head in sorted(heads - cited.get(name, set())):
                fault(f"PROTOCOL.md does not cite {name} {head}")
    return sum(len(names) for names in cited.values())


def check_links(path):
    text = text_of(path)
    here = os.path.dirname(path)
    links = [os.path.join(here, t.split("#")[0]) for t in re.findall(r"\]\(([^)#][^)]*)\)", text) if "://" not in t]
    links += re.findall(r"`((?:crates|docs|lessons|scripts|tests|benchmark|examples|include)/[\w./-]*)`", text)
    for link in links:
        # NAME stands for any name
        if "NAME" not in link and not os.path.exists(link) and not os.path.exists(f"crates/{link}"):
            fault(f"{path}: {link} leads nowhere")
    return len(links)


def check_map():
    listed = {line.split(":")[0].split()[0] for line in re.sub(r"#.*", "", text_of("crates.txt")).split("\n") if ":" in line}
    readme = text_of("README.md")
    rows = re.search(r"\| Crate \| Holds \|\n(.*?)\n\n", readme, re.S).group(1).split("\n")
    mapped = {name for row in rows for name in re.findall(r"`(\w+)`", row.split("|")[1])}
    for name in sorted(listed ^ mapped):
        fault(f"{name} stands in one of crates.txt and the README's map only")
    return len(mapped)


def check_count():
    n = 0
    for crate in ("rules", "ledger", "demands"):
        for path in glob.glob(f"crates/{crate}/specs/*.antt"):
            n += len([l for l in text_of(path).split("\n") if not re.match(r" *(--.*)?$|(pub )?(use|mod) ", l)])
    for path in ("README.md", "docs/TRUST.md"):
        if f"{n} lines" not in text_of(path):
            fault(f"{path} does not say that there are {n} lines of definitions")
    return n


def main():
    cited = check_protocol()
    links = sum(check_links(path) for path in ["README.md", *sorted(glob.glob("docs/**/*.md", recursive=True))])
    crates = check_map()
    lines = check_count()
    print(f"{cited} definitions cited, {links} links and paths, {crates} crates mapped, {lines} lines of definitions: {len(faults)} wrong")
    sys.exit(bool(faults))


if __name__ == "__main__":
    main()
