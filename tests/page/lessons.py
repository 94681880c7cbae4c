"""Every lesson by its buttons, held to what the bench says to the same lines (lessons/NAME.out), with a picture of its
end."""

import json
import re

from browser import ROOT, Wrong, holds, same
from pictures import is_empty

HEADINGS = {"  reset", "  finalize", "  version, once more"}
# Of an upload the bench says more on the way: the sentences about its end.
ENDS = ("not begun", "read back", "upload done", "broke off", "partly", "not uploaded", "changed since", "0 pages erased:", "stopped at")


def names():
    return [lesson["name"] for lesson in json.loads((ROOT / "page/lessons.json").read_text(encoding="utf-8"))]


def bench(name):
    """The lines of a lesson, each with what the bench says to it."""
    said = []
    for line in (ROOT / f"lessons/{name}.out").read_text(encoding="utf-8").splitlines():
        if line == "  the script ends":
            break
        if line.startswith("> "):
            said.append((line[2:].strip(), []))
        elif line.startswith("  "):
            said[-1][1].append(line)
    return said


def own_sentences():
    """What only the page says, as patterns."""
    def texts(value):
        if isinstance(value, str):
            yield value
        else:
            for item in value.values() if isinstance(value, dict) else value:
                yield from texts(item)
    page = json.loads((ROOT / "page/words.json").read_text(encoding="utf-8"))["page"]
    return [re.compile(r"\s*(\*\* )?" + re.escape(text).replace("%", ".*") + r"( \*\*)?") for text in texts(page) if text]


def is_end(line):
    return any(words in line for words in ENDS)


def compare(line, told, said, own):
    """The page's told lines and the bench's."""
    said = [text for text in said if text not in HEADINGS]
    told = [text for text in told if text in said or not any(pattern.fullmatch(text) for pattern in own)]
    if line.startswith("upload "):
        told, said = filter(is_end, told), filter(is_end, said)
    same(f"> {line}", list(told), list(said))


# ---- lines that only show something

def marks(said):
    return "".join(row.split()[1] for row in said[1:])


def mark(text):
    return "w" if "w" in text else text[0]


def waiting(screen):
    found = re.match(r"\d+", screen["waiting"])
    return found[0] if found else "0"


def shown_state(screen):
    facts = screen["facts"]
    # on RS485 no reply is kept, and none is shown
    names = ("next address", "erase count", "last reply")
    numbers = [re.match(r"\d+|none", facts.get(name, "none"))[0].replace("none", "0") for name in names]
    return [facts["listens to"].removesuffix(", its own address"), facts["runs"].split(",")[0], numbers[0], waiting(screen), *numbers[1:]]


def told_state(said):
    listens, runs = re.match(r"  the board listens to ([^;]*); the (bootloader|application) runs", said[0]).groups()
    return [listens, f"the {runs}", *re.findall(r"\d+", said[1])]


def numbers_of_tally(said):
    numbers = [re.search(r": (\d+)", line)[1] for line in said[1:]]
    return numbers[:1] if "I2C" in said[0] else numbers


def look(line, screen, said):
    """A line that shows the map, the state or the tally: the page shows the same."""
    if line == "map":
        same("the map's marks", "".join(map(mark, screen["marks"])), marks(said))
    elif line == "state":
        same("the board's facts", shown_state(screen), told_state(said))
    elif line == "tally":
        same("the tally", re.findall(r"\d+", screen["facts"]["tally"]), numbers_of_tally(said))


# ---- what is seen

def is_shown(screen, last):
    """What is told of the last step stands on the screen, on its side, and so do its bytes."""
    if last is None:
        return
    # one that is told twice is shown once
    alarms = list(dict.fromkeys(last["alarms"]))
    same("alarms on the screen", screen["alarms"][:len(alarms)], alarms)
    failures = [text for text in last["master"] if re.match(r"status [1-9]|number ([7-9]|1[0-3]),", text)]
    same("failures on the screen", screen["failures"], failures)
    for side in ("master", "bus", "board"):
        missing = [text for text in last[side] if text not in screen[side] and not text.startswith("request to ")]
        same(f"told lines missing at the {side}", missing, [])
    for name in ("arrivedFrame",) if last["held"] else ("arrivedFrame", "reply"):
        holds(f"{name} {last[name]} is not on the bus: {screen['wire']}", not last[name] or last[name] in screen["wire"])
    if last["held"]:
        # damage to it may be set already
        same(f"bytes of the held reply {last['reply']}", len(screen["frame"]), len(last["reply"]))


# ---- the lesson

def choose(page, now, right):
    """The question of a step: nothing of the answer is shown before, and the step is not done."""
    question = now["question"]
    for text in [question["why"], *now["say"]]:
        holds(f"the answer is shown before a choice: {text}", text not in now["shown"])
    holds("the line can be done before a choice", not now["ready"])
    choice = question["right"] if right else (question["right"] + 1) % len(question["choices"])
    page.click(f'[data-key="choice-{choice}"]')
    after = page.js("return probe.lesson()")
    holds("the line cannot be done after a choice", after["ready"])
    same("steps after a choice", after["steps"], now["steps"])
    holds("the answer is shown after a choice, and before the line is done", question["why"] not in after["shown"])
    return choice


def verdict(after, question, choice):
    holds(f"the answer is not shown: {question['why']}", question["why"] in after["verdict"])
    right = choice == question["right"]
    holds(f"the verdict: {after['verdict']}", ("As you expected" in after["verdict"]) == right and ("Not so" in after["verdict"]) != right)
    holds("the verdict does not say what was expected", right or question["choices"][choice] in after["verdict"])


def refuses(said):
    return any("is not understood and changes nothing" in line for line in said)


def step(page, now, line, said, own, right):
    """A line of the lesson; what is shown after it."""
    same("the lesson's line", now["line"], line)
    choice = choose(page, now, right) if now["question"] else None
    page.click("#do-it")
    after, told, last, screen = page.js(
        "return [probe.lesson(), probe.told(arguments[0], childbus.session.at), probe.last(), probe.screen()]", now["at"])
    if now["question"]:
        verdict(after, now["question"], choice)
    same(f"refused: {line}", after["refused"], refuses(said))
    if line in ("map", "state", "tally"):
        look(line, screen, said)
    elif not after["refused"]:
        compare(line, told, said, own)
        is_shown(screen, last)
    return after


def take(page, name, own, pick):
    """A lesson from start to end. The nth question is answered rightly if pick(n)."""
    page.click("#show-lessons")
    page.click(f"#lesson-{name}")
    asked, now = 0, page.js("return probe.lesson()")
    for line, said in bench(name):
        question = now["question"] is not None
        now = step(page, now, line, said, own, pick(asked))
        asked += question
    right = sum(map(pick, range(asked)))
    holds(f"the end: {now['end']}", re.findall(r"\d+", now["end"]) == ([str(right), str(asked)] if asked else []))
    return asked


def all_right(_):
    return True


def second_right(n):
    return n % 2 == 1


def by_hand(page):
    """A line of a lesson that is done by the master's form goes on with the lesson, one with a question only after a choice."""
    page.click("#show-lessons")
    page.click("#lesson-first-upload")
    for _ in range(2):
        page.click("#do-it")
    place = lambda: page.js("return childbus.lesson.place")
    for command in ("version", "info"):
        before = place()
        page.send(command)
        same(f"the lesson after {command} by hand", place(), before + 1)
    before = place()
    page.send("write", flash_address=0, data="fill 11 70")
    same("the lesson after a line by hand without a choice", place(), before)
    holds("a verdict without a choice", page.js("return probe.lesson()")["verdict"] == "")
    page.click('[data-key="choice-1"]')
    page.click("#do-it")
    same("the lines", page.js("return childbus.session.lines().slice(2)"), ["version", "info", "write 0 fill 11 70"])
    page.click("#leave-lesson")


def off_path(page):
    """What is done besides a lesson, in its past and instead of its steps, is put aside when the lesson goes on."""
    page.click("#show-lessons")
    page.click("#lesson-first-upload")
    while page.js("return childbus.lesson.entry.line") != "finalize":
        now = page.js("return probe.lesson()")
        if now["question"]:
            page.click(f'[data-key="choice-{now["question"]["right"]}"]')
        page.click("#do-it")
    lines = page.js("return childbus.session.lines()")
    away = lambda: page.js("return document.getElementById('off-path') !== null")
    holds("the lesson is away from its own steps", not away())
    page.click("#back")
    holds("a step back is not told", away())
    page.click("#power")
    page.send("write", flash_address=0, data="fill 33 5")
    holds("another way is not told", away())
    page.click('[data-key="choice-0"]')
    page.click("#do-it")
    holds("the lesson is not back", not away())
    same("the lesson's steps", page.js("return childbus.session.lines()"), [*lines, "finalize"])
    same("pages after finalize", page.js("return Array.from(childbus.session.now.counts)"), [1, 1])
    same("the flash", page.js("return Array.from(childbus.session.flash.slice(60, 72))"), [0x11] * 10 + [0xFF] * 2)
    page.click("#restore")
    holds("the other steps are not told", away())
    page.click("#leave-lesson")


def other_byte(page):
    """A lesson asks for a byte to be damaged: it is marked, a click on it goes on, and a click on another says so."""
    page.click("#show-lessons")
    page.click("#lesson-damaged-frame")
    for _ in range(2):
        page.click("#do-it")
    marked = page.js("return Array.from(document.querySelectorAll('.byte.wanted'), byte => byte.dataset.key)")
    same("the marked byte", marked, ["frame-1"])
    page.click('[data-key="frame-2"]')
    holds(f"another byte: {page.message()}", "byte 2" in page.message())
    page.click("#back")
    page.click('[data-key="frame-1"]')
    same("the lesson after the click", page.js("return childbus.lesson.place"), 3)
    page.click("#leave-lesson")


def refused_lines(page):
    """Lines that the bench refuses are refused by the page too, with a message; the others are told alike."""
    own, count = own_sentences(), 0
    for line, said in bench("wrong-lines"):
        if line in ("help", "quit", "state", "map"):
            continue
        before = page.js("return [childbus.session.at, probe.snapshot()]")
        page.line(line)
        after = page.js("return [childbus.session.at, probe.snapshot()]")
        refused = any("changes nothing" in text or "is not done" in text for text in said)
        same(f"refused: {line}", page.message() != "", refused)
        if refused:
            same(f"after {line}", after, before)
        elif not line.startswith("upload "):
            compare(line, page.js("return probe.told(arguments[0], arguments[1])", before[0], after[0]), said, own)
        count += refused
    return count


def part(page, only=None, passes=(all_right, second_right), picture=True):
    """Every lesson by its buttons, once with right choices and once with wrong ones."""
    own = own_sentences()
    page.open()
    questions = lines = 0
    for pick in passes:
        for name in only or names():
            try:
                questions += take(page, name, own, pick)
                lines += len(bench(name))
                if picture and pick is passes[0]:
                    seen(page, f"lesson-{name}")
                page.click("#leave-lesson")
            except Wrong as wrong:
                raise Wrong(f"lesson {name}: {wrong}") from wrong
    if only:
        return "some lessons"
    by_hand(page)
    off_path(page)
    other_byte(page)
    return f"{lines} lines, {questions} questions, with right and wrong choices; {refused_lines(page)} lines that are refused"


def seen(page, name):
    page.js("scrollTo(0, 0)")
    empty = is_empty(page.picture(name))
    holds(f"the picture {name} is empty: {empty}", empty is None)
