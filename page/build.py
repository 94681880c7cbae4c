"""Puts the training page together: one HTML file of the parts in page/, the lessons, and the library as WebAssembly.

    build.py ROOT WASM OUTPUT

A lesson that page/lessons.json names is lessons/NAME.txt, the bench's own script: remarks are told, and each other line is a step. A
question belongs to the line that it names, the nth such line of the lesson; the remark before that line is left out, and so are those
under "unsaid": they give the answer away.
"""

import base64
import json
import pathlib
import sys

SCRIPTS = ["library.js", "lines.js", "steps.js", "exchange.js", "session.js", "say.js", "view.js", "lesson.js", "main.js"]
SHOWN = {"map", "state", "tally"}


def paragraphs(remarks):
    """Lines of remarks as paragraphs: one line is one more sentence of the same."""
    return [" ".join(remarks)] if remarks else []


def without_heading(remarks, first):
    """The lesson's first remark begins with its number and name."""
    return [text.split(". ", 2)[-1] if first and k == 0 and text.startswith("Lesson ") else text for k, text in enumerate(remarks)]


def entries(text, unsaid):
    """The steps of a lesson: what is told before each, and its line. A remark that gives an answer away is left unsaid."""
    steps, remarks = [], []
    for line in text.splitlines():
        if line.startswith("#"):
            remarks += [] if line[1:].strip().startswith(tuple(unsaid)) else [line[1:].strip()]
        elif line.strip():
            steps.append({"say": paragraphs(without_heading(remarks, not steps)), "line": line.strip()})
            remarks = []
    return steps


def with_questions(name, steps, questions):
    for question in questions:
        found = [step for step in steps if step["line"] == question["line"]]
        if len(found) < question["nth"]:
            raise SystemExit(f"page: lesson {name} has no line {question['line']!r} for the {question['nth']}. time")
        asked = found[question["nth"] - 1]
        asked["say"] = []
        asked["question"] = {key: question[key] for key in ("ask", "choices", "right", "why")}
    return steps


def lessons(root):
    for lesson in json.loads((root / "page/lessons.json").read_text(encoding="utf-8")):
        text = (root / f"lessons/{lesson['name']}.txt").read_text(encoding="utf-8")
        for start in lesson["unsaid"]:
            if not any(line[1:].strip().startswith(start) for line in text.splitlines() if line.startswith("#")):
                raise SystemExit(f"page: lesson {lesson['name']} has no remark {start!r}")
        steps = entries(text, lesson["unsaid"])
        yield {"name": lesson["name"], "title": lesson["title"], "entries": with_questions(lesson["name"], steps, lesson["questions"])}


def encoded(path):
    return base64.b64encode(path.read_bytes()).decode("ascii")


def constant(name, value):
    """A constant of the script. No text may end the script element."""
    return f"const {name} = {json.dumps(value, ensure_ascii=False)};".replace("</", "<\\/")


def main():
    root, wasm, output = map(pathlib.Path, sys.argv[1:])
    page = root / "page"
    read = lambda name: (page / name).read_text(encoding="utf-8")
    data = [
        constant("WORDS", json.loads(read("words.json"))),
        constant("LESSONS", list(lessons(root))),
        constant("FILES", {"lessons/image.bin": encoded(root / "lessons/image.bin")}),
        constant("WASM", encoded(wasm)),
    ]
    script = "\n".join(data + [read(name) for name in SCRIPTS])
    html = read("page.html").replace("/*STYLE*/", read("style.css")).replace("/*SCRIPT*/", script)
    output.write_text(html, encoding="utf-8")


main()
