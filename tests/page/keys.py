"""The keyboard alone: a lesson from start to end by Tab, arrows, Space and Enter; arrows within bytes and pages; [ and ]."""

from browser import SHIFT, Wrong, holds, same
from lessons import bench

LESSON = "first-upload"
MOST_TABS = 60


def tab_to(page, wanted, most=MOST_TABS):
    """Presses Tab until the focus is there; how often that was."""
    for count in range(most + 1):
        if page.focus() == wanted:
            return count
        page.key("Tab")
    raise Wrong(f"Tab does not come to {wanted} within {most} presses: the focus is at {page.focus()}")


def choose(page, right):
    """The right answer: the focus is at the first one, or at the button that cannot be pressed yet; an arrow goes on."""
    tab_to(page, "choice-0")
    if right == 0:
        page.key("Space")
    for _ in range(right):
        page.key("Down")
    same("the chosen answer", page.js("return childbus.lesson.choice"), right)


def lesson(page):
    """A lesson from start to end: how many Tabs it takes at most to come to its button."""
    page.open()
    tab_to(page, "show-lessons")
    page.key("Enter")
    tab_to(page, f"lesson-{LESSON}")
    page.key("Enter")
    tabs, asked = [], 0
    for number, (line, _) in enumerate(bench(LESSON)):
        now = page.js("return probe.lesson()")
        same("the lesson's line", now["line"], line)
        if now["question"]:
            choose(page, now["question"]["right"])
            asked += 1
        tabs.append(tab_to(page, "do-it"))
        page.key("Enter" if number % 2 else "Space")
        same("the lesson goes on", page.js("return childbus.lesson.place"), number + 1)
        holds(f"the focus is lost: {page.focus()}", page.focus() in ("do-it", "choice-0", "next-lesson"))
    end = page.js("return probe.lesson()")["end"]
    holds(f"the end: {end}", f"{asked} of {asked}" in end)
    return max(tabs)


TABBED = """
    const buttons = Array.from(document.querySelectorAll(`[data-key^="${arguments[0]}-"]`));
    return buttons.filter(button => button.tabIndex === 0).length;
"""


def moves(page, group, keys):
    """Arrows within a group: after each key the focus is at its place, and one button of the group is in the order of Tab."""
    for key, place in keys:
        page.key(key)
        same(f"{group}: the focus after {key}", page.focus(), f"{group}-{place}")
        same(f"{group}: buttons that Tab comes to", page.js(TABBED, group), 1)


def frame_bytes(page):
    page.open()
    page.line("board rs485")
    tab_to(page, "frame-0")
    last = page.js("return document.querySelectorAll('[data-key^=\"frame-\"]').length") - 1
    moves(page, "frame", [("Right", 1), ("Right", 2), ("Left", 1), ("End", last), ("Right", last), ("Home", 0), ("Left", 0), ("Right", 1)])
    page.key("Space")
    same("the damaged byte", page.js("return childbus.session.now.frameHits.map(hit => hit.byte)"), [2])
    same("the focus after a byte is damaged", page.focus(), "frame-1")
    page.key("Enter")
    same("the byte is whole again", page.js("return childbus.session.now.frameHits.length"), 0)
    page.key("Tab")
    same("Tab leaves the bytes", page.focus(), "lose-frame")


def pages(page):
    page.open()
    page.line("board i2c S 4096")
    tab_to(page, "page-0", 80)
    row = page.js("""
        const top = key => document.querySelector(`[data-key="page-${key}"]`).getBoundingClientRect().top;
        let n = 0;
        while (top(n) === top(0)) n++;
        return n;""")
    moves(page, "page", [("Right", 1), ("Down", 1 + row), ("Left", row), ("Up", 0), ("End", 63), ("Home", 0), ("Right", 1)])
    page.key("Enter")
    bytes_shown = page.js("return document.getElementById('page-bytes').textContent")
    holds("Enter does not show the page's bytes", bytes_shown.startswith("Page 1,"))
    same("the focus after a page is shown", page.focus(), "page-1")
    page.key("Space")
    holds("Space does not close it", page.js("return document.getElementById('page-bytes').hidden"))


def back_and_forward(page):
    page.open()
    for line in ("version", "write 0 fill 11 70", "finalize"):
        page.line(line)
    at = lambda: page.js("return childbus.session.at")
    for key, want in (("[", 2), ("[", 1), ("]", 2), ("[", 1), ("[", 0), ("[", 0), ("]", 1), ("]", 2), ("]", 3), ("]", 3)):
        page.key(key)
        same(f"the step after {key}", at(), want)
    tab_to(page, "back")
    page.key("[")
    same("the step after [ on a button", at(), 2)
    page.fill("data", "")
    page.key("[")
    same("the step after [ in a field", at(), 2)
    same("the field", page.js("return document.getElementById('data').value"), "[")
    page.key("Tab", SHIFT)
    holds("Shift and Tab leaves the field", page.focus() != "data")


def fields(page):
    """A command by the keyboard: Enter in a field sends."""
    page.open()
    page.fill("data", "0102")
    page.key("Enter")
    same("the line", page.js("return childbus.session.lines()"), ["write 0 0102"])


def part(page, only=(lesson, frame_bytes, pages, back_and_forward, fields)):
    """The keyboard alone."""
    tabs = 0
    for test in only:
        try:
            tabs = test(page) or tabs
        except Wrong as wrong:
            raise Wrong(f"{test.__name__}: {wrong}") from wrong
    return f"lesson {LESSON} by keys, with at most {tabs} Tabs to its button; bytes, pages, [ and ]"
