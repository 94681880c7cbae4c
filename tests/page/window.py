"""The windows of tablets, print, and a page that needs no other machine."""

import base64
import pathlib
import re
import zlib
from urllib.parse import unquote, urlparse

from browser import Wrong, holds, same

TABLETS = ((1024, 768), (768, 1024))

# Addresses of other machines, and ways to other files.
ELSEWHERE = (
    r"https?:", r"\bwss?:", r"\bftp:", r"\bsrc\s*=", r"""["'(]//\w""", r"@import", r"\bimport\s*\(", r"XMLHttpRequest",
    r"""url\(\s*["']?(?!data:|#)""",
)

# What goes over the right edge of the window or of its side (master, bus, board), and is not in a box that scrolls by itself.
OVER = """
    const inBox = node => ['auto', 'scroll', 'hidden'].includes(getComputedStyle(node).overflowX);
    const scrolls = node => node !== document.body && (inBox(node) || scrolls(node.parentElement));
    const over = [];
    for (const node of document.querySelectorAll('body *')) {
        const box = node.getBoundingClientRect();
        const side = node.closest('.side');
        const edge = Math.min(innerWidth, side?.getBoundingClientRect().right ?? innerWidth);
        const name = `${node.tagName} ${node.id || node.className}`;
        if (box.width && box.right > edge + 0.5 && !scrolls(node.parentElement)) over.push(name);
    }
    scrollTo(1000, scrollY);
    const moved = scrollX;
    scrollTo(0, scrollY);
    return [document.documentElement.scrollWidth - document.documentElement.clientWidth, moved, over.slice(0, 5)];
"""


def fits(page, what):
    same(f"{what}: goes over the window's edge", page.js(OVER), [0, 0, []])


# ---- windows

def dialogs(page):
    for name in ("show-lessons", "show-board", "show-case", "show-help"):
        page.click(f"#{name}")
        fits(page, name)
        page.key("Escape")


def boards(page):
    """Long frames, many pages, the bytes of a page, long lines, and a message."""
    for bus in ("i2c", "rs485"):
        page.line(f"board {bus} M 256 page 128 S 65408 serial {'ab' * 16}")
        page.line("write 0 fill 11 200")
        fits(page, f"a long frame on {bus}")
        page.line("read 0 200")
        fits(page, f"a long reply on {bus}")
        page.click('[data-key="page-0"]')
        fits(page, "the bytes of a page")
        page.click('[data-key="page-0"]')
        page.line("hold on")
        page.line("read 0 240")
        fits(page, "a long reply that is held")
        page.line("arrive")
        page.line(f"upload {'5a' * 4000} frames 200")
        page.line("next")
        fits(page, "an upload")
    page.line("to 77")
    page.line("write 0 11")
    fits(page, "alarms")
    page.line("send " + "z" * 300)
    holds("a message", page.message() != "")
    fits(page, "a message with a long word")


def lesson(page):
    page.click("#show-lessons")
    page.click("#lesson-first-upload")
    for _ in range(4):
        page.click("#do-it")
    fits(page, "a question")
    page.click('[data-key="choice-1"]')
    page.click("#do-it")
    fits(page, "a verdict")
    page.click("#leave-lesson")


def tablets(page):
    try:
        for width, height in TABLETS:
            page.cdp("Emulation.setDeviceMetricsOverride", width=width, height=height, deviceScaleFactor=1, mobile=False)
            page.open()
            same("the window", page.js("return [innerWidth, innerHeight]"), [width, height])
            fits(page, f"the first sight, {width} x {height}")
            for test in (dialogs, lesson, boards):
                test(page)
    finally:
        page.cdp("Emulation.clearDeviceMetricsOverride")


# ---- print

def streams(pdf):
    """The streams of a PDF that zlib can read."""
    for raw in re.findall(rb"stream\r?\n(.*?)\r?\nendstream", pdf, flags=re.DOTALL):
        try:
            yield zlib.decompress(raw)
        except zlib.error:
            pass


def printed(page):
    page.open()
    for line in ("write 0 fill 11 70", "finalize", "write 0 fill 22 30"):
        page.line(line)
    pdf = base64.b64decode(page.cdp("Page.printToPDF", printBackground=True)["data"])
    (page.folder / "printed.pdf").write_bytes(pdf)
    holds("no PDF", pdf.startswith(b"%PDF") and len(re.findall(rb"/Type\s*/Page\b", pdf)) >= 1)
    shown = sum(len(re.findall(rb"T[jJ]\b", stream)) for stream in streams(pdf))
    holds(f"a PDF with {shown} pieces of text", shown > 100)


# ---- no other machine

def alone(page):
    """No address of another machine in the file, and nothing asked for, with no network."""
    html = pathlib.Path(unquote(urlparse(page.url).path)).read_text(encoding="utf-8")
    for pattern in ELSEWHERE:
        found = re.search(pattern, html)
        holds(f"the file has {found and html[found.start():found.start() + 60]!r}", not found)
    links = re.findall(r"""\bhref\s*=\s*["']([^"']*)""", html)
    same("links to another place", [link for link in links if not link.startswith(("#", "data:"))], [])
    page.cdp("Network.enable")
    page.cdp("Network.emulateNetworkConditions", offline=True, latency=0, downloadThroughput=-1, uploadThroughput=-1)
    try:
        page.open()
        page.click("#send")
        same("what the page asked for", page.js("return performance.getEntriesByType('resource').map(entry => entry.name)"), [])
        same("a step without a network", page.js("return childbus.session.steps.length"), 1)
    finally:
        page.cdp("Network.emulateNetworkConditions", offline=False, latency=0, downloadThroughput=-1, uploadThroughput=-1)


TESTS = (tablets, printed, alone)


def part(page, only=TESTS):
    """Windows of tablets, print, and no network."""
    for test in only:
        try:
            test(page)
        except Wrong as wrong:
            raise Wrong(f"{test.__name__}: {wrong}") from wrong
    return "1024 x 768 and 768 x 1024, a PDF, no other machine"
