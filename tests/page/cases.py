"""Cases by links and files. One that is saved and opened gives the same; a broken one is refused with a message, and nothing is
lost."""

import base64
import random
import re

from browser import Wrong, holds, same
from steps import LINES

HEADING = "childbus case 1"
REFUSED = re.compile(r"not (opened|taken), and nothing has changed: .+")


def held(page):
    """All that may not be lost."""
    return page.js("return [childbus.session.lines(), childbus.session.at, probe.snapshot(), childbus.lesson !== null]"), page.flash()


def play(page, lines):
    for line in lines:
        page.line(line)


# ---- opening

def dialog(page):
    page.click("#show-case")


def paste(page, text):
    dialog(page)
    page.fill("case-paste", text)
    page.click("#open-case")


def choose_file(page, path):
    dialog(page)
    page.give("case-file", path)
    page.wait("the dialog closes", lambda: not page.js("return document.getElementById('case-dialog').open"))
    page.wait("the file is read", lambda: page.js("return document.getElementById('case-file').value") == "")


def drop_file(page, path):
    page.js("childbus.say('')")
    page.drop(path)
    page.wait("the file is read", lambda: page.message() or page.js("return document.getElementById('image-note').textContent"))


# ---- good cases

def saved(page):
    """The case that is saved as a file, as it is shown."""
    page.cdp("Browser.setDownloadBehavior", behavior="allow", downloadPath=str(page.folder))
    path = page.folder / "childbus-case.txt"
    path.unlink(missing_ok=True)
    dialog(page)
    text = page.js("return document.getElementById('case-text').value")
    same("the case's text", text, page.js("return caseText(childbus.session.lines())"))
    page.click("#save-case")
    page.wait("the file is there", lambda: path.exists() and path.stat().st_size == len(text.encode()))
    same("the file", path.read_text(encoding="utf-8"), text)
    page.click("#link-case")
    link = page.js("return document.getElementById('link').value")
    page.click("#case-dialog .close")
    return path, link


def is_same(page, way, want):
    """State, flash, facts and lines of an opened case are those of the saved one."""
    holds(f"{way}: {page.message()}", page.message().startswith("The case is open"))
    got = held(page)
    same(f"{way}: lines", got[0][0], want[0][0])
    for name, value in want[0][2].items():
        same(f"{way}: {name}", got[0][2][name], value)
    same(f"{way}: flash", got[1] == want[1], True)


def good(page):
    page.open()
    play(page, LINES)
    want = held(page)
    path, link = saved(page)
    holds("the link is the page's own", link.startswith(page.url + "#case="))
    returns = page.folder / "returns.txt"
    returns.write_bytes(path.read_bytes().replace(b"\n", b"\r\n"))
    ways = {
        "file": lambda: choose_file(page, path), "drop": lambda: drop_file(page, path), "lines": lambda: paste(page, path.read_text()),
        "link": lambda: paste(page, link), "address": lambda: page.open(link),
        "carriage returns": lambda: choose_file(page, returns),
    }
    for way, act in ways.items():
        page.open()
        act()
        is_same(page, way, want)
    same("back through an opened case", back_to_the_beginning(page), len(LINES))
    same("flash at the beginning", page.flash(), b"\xff" * 131072)


def back_to_the_beginning(page):
    steps = 0
    while not page.js("return document.getElementById('back').disabled"):
        page.click("#back")
        steps += 1
    return steps


def big(page):
    """A case with a long upload in it is too long for a link, and is opened from its file."""
    page.open()
    image = random.Random(5).randbytes(40000)
    play(page, ["board i2c M 256 S 65472", f"upload {image.hex()} frames 252", "next 100"])
    want = held(page)
    path, link = saved(page)
    holds(f"a link of {len(link)} characters", "too long" in link)
    page.open()
    choose_file(page, path)
    is_same(page, "a long case", want)


# ---- broken ones

def link_of(page, text):
    return f"{page.url}#case={base64.urlsafe_b64encode(text.encode()).decode().rstrip('=')}"


def cut_links(page):
    """Cuts of a link, all of which lose its last line."""
    text = "\n".join([HEADING, *LINES[:12], "end", ""])
    whole = link_of(page, text)
    start = whole.index("=") + 1
    return {f"a link cut at {n}": whole[:start + n] for n in [0, 1, 7, 18, *range(25, len(whole) - start - 3, 5), len(whole) - start - 3]}


def broken_texts(page):
    yield from cut_links(page).items()
    yield "not base64", f"{page.url}#case=%%%%"
    yield "base64 of no text", f"{page.url}#case={base64.urlsafe_b64encode(bytes([0xff, 0xfe, 0x80]) * 20).decode()}"
    yield "wrong heading", "childbus case 2\nversion\nend\n"
    yield "no heading", "version\nwrite 0 11\nend\n"
    yield "no end", f"{HEADING}\nversion\nwrite 0 11\n"
    yield "a line behind the end", f"{HEADING}\nversion\nend\nwrite 0 11\n"
    yield "nothing", ""
    yield "a wrong line in the middle", f"{HEADING}\nversion\nwrite 0 fill 11 70\nwrote 70 22\nversion\nend\n"
    yield "a line that cannot be done", f"{HEADING}\nversion\nnext 3\nversion\nend\n"
    yield "a board that cannot be", f"{HEADING}\nboard i2c S 100\nversion\nend\n"
    yield "a link with a wrong line", link_of(page, f"{HEADING}\nversion\nwrite 0 zz\nend\n")


def broken_files(page):
    noise = random.Random(6).randbytes(3000)
    yield "an empty file", b""
    yield "a binary file", noise
    yield "a binary file with the heading", HEADING.encode() + b"\n" + noise
    yield "a file of many lines with a wrong one", "\n".join([HEADING, *["version"] * 3000, "nothing", "end"]).encode()


def refused(page, way, before):
    holds(f"{way}: the message is not clear: {page.message()!r}", REFUSED.search(page.message()))
    same(f"{way}: what was there", held(page), before)


def broken(page):
    page.open()
    play(page, LINES[:40])
    page.click("#back")
    before = held(page)
    texts, files = dict(broken_texts(page)), dict(broken_files(page))
    for way, text in texts.items():
        paste(page, text)
        refused(page, way, before)
    for way, data in files.items():
        path = page.folder / "broken.txt"
        path.write_bytes(data)
        choose_file(page, path)
        refused(page, way, before)
    paste(page, f"{HEADING}\nversion\nwrote 70 22\nend\n")
    holds("the wrong line is named", "line 3" in page.message() and "wrote" in page.message())
    return len(texts) + len(files) + dropped(page, before)


def dropped(page, before):
    """What is dropped: an empty file and one that is too long are not taken; a broken case is refused."""
    files = {"empty": b"", "long": bytes(131073), "case": f"{HEADING}\nwrote 0 11\nend\n".encode()}
    for way, data in files.items():
        path = page.folder / f"dropped-{way}.bin"
        path.write_bytes(data)
        drop_file(page, path)
        refused(page, f"dropped, {way}", before)
    path.write_bytes(random.Random(7).randbytes(500))
    drop_file(page, path)
    same("a binary file that is dropped is an image, and changes nothing yet", held(page), before)
    return len(files)


def broken_in_lesson(page):
    """In a lesson a broken case leaves the lesson as it is; and what was done before the lesson is back after it."""
    page.open()
    play(page, LINES[:10])
    first = held(page)
    page.click("#show-lessons")
    page.click("#lesson-first-upload")
    for _ in range(4):
        page.click("#do-it")
    before = held(page)
    paste(page, link_of(page, f"{HEADING}\nnothing\n"))
    refused(page, "in a lesson", before)
    page.click("#leave-lesson")
    same("after the lesson", held(page), first)
    return 1


def broken_address(page):
    """A page that is opened by a broken link says so, and is usable."""
    page.open(f"{page.url}#case=abcd")
    holds(f"the message: {page.message()}", REFUSED.search(page.message()))
    page.line("version")
    same("steps", page.js("return childbus.session.lines()"), ["version"])
    return 1


TESTS = (good, big, broken, broken_in_lesson, broken_address)


def part(page, only=TESTS):
    """A case saved and opened is the same; a broken one is refused, and nothing is lost."""
    refusals = 0
    for test in only:
        try:
            refusals += test(page) or 0
        except Wrong as wrong:
            raise Wrong(f"{test.__name__}: {wrong}") from wrong
    return f"a case saved and opened in 6 ways; {refusals} broken links and files refused"
