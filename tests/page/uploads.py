"""A file of 65,472 bytes, dropped and chosen, uploaded at once; and a short upload, one frame at a time."""

import random
import re

from browser import Wrong, holds, same

SIZE = 65472

# The progress as it is painted, frame by frame.
WATCH = """
    window.seen = [];
    const look = () => {
        const bar = document.getElementById('progress');
        if (!document.getElementById('plan').hidden && !bar.hidden) seen.push(bar.value / bar.max);
        if (childbus.session.now.plan) requestAnimationFrame(look);
    };
    requestAnimationFrame(look);
"""


def image_file(page, seed):
    path = page.folder / "image.bin"
    path.write_bytes(random.Random(seed).randbytes(SIZE))
    return path


def taken(page, path):
    """The file's name and length are shown."""
    page.wait("the file is taken", lambda: str(path.stat().st_size) in page.js("return document.getElementById('image-note').textContent"))


def is_done(page):
    return page.js("return childbus.session.now.plan === null && !childbus.busy")


def at_once(page, frames):
    """Uploads what is chosen, all at once; the progress that was seen."""
    page.fill("frames", frames)
    page.click("#begin")
    same("the upload has begun", page.js("return childbus.session.now.plan?.phase"), "info")
    page.js(WATCH)
    page.click("#all")
    page.wait("the upload ends", lambda: is_done(page))
    return page.js("return seen")


def moves(values):
    """A progress that is seen to move."""
    holds(f"the progress stands: {values}", len(set(values)) >= 4 and any(0.1 < value < 0.5 for value in values) and max(values) > 0.5)
    # once for the writes, then for what is read back
    again = next((i for i in range(1, len(values)) if values[i] < values[i - 1]), len(values))
    same("the progress goes on", values, sorted(values[:again]) + sorted(values[again:]))


def holds_image(page, image, pages, offset=0):
    """The flash holds the image, and the page says so."""
    same("the flash", page.flash()[offset:offset + len(image)] == image, True)
    screen = page.screen()
    same("told at the end", screen["master"][-2:], [f"read back: {len(image)} bytes as sent", f"upload done: {pages} pages erased"])
    same("erase count", re.match(r"\d+", screen["facts"]["erase count"])[0], str(pages))


def worn(page):
    return [mark.strip("!w") for mark in page.screen()["marks"]]


def dropped(page, path):
    """Dropped on the page, on RS485."""
    image = path.read_bytes()
    page.open()
    page.board("rs485", M=256, S=SIZE)
    page.drop(path)
    taken(page, path)
    moves(at_once(page, 40))
    holds_image(page, image, SIZE // 64)
    same("pages rewritten", worn(page), ["1"] * (SIZE // 64))
    at_once(page, 200)
    holds_image(page, image, 0)
    alarm = "0 pages erased: the flash held these bytes already, nothing was worn"
    holds(f"no alarm: {alarm}", alarm in page.js("return probe.told(0, 1e9).join('\\n')"))
    same("pages rewritten by the same upload", worn(page), ["1"] * (SIZE // 64))


def chosen(page, path):
    """By the file field, on I2C, with pages of 128 bytes behind an offset: stopped on its way, and begun again."""
    image = path.read_bytes()[:SIZE - 64]
    cut = page.folder / "cut.bin"
    cut.write_bytes(image)
    page.open()
    page.board("i2c", M=256, page=128, S=len(image), O=1024)
    page.give("file", cut)
    taken(page, cut)
    paused(page)
    page.click("#stop")
    changed = worn(page).count("1")
    alarm = "partly uploaded: the flash holds a part of the new image, and the old one no more"
    holds(f"no alarm: {alarm}", 0 < changed < len(image) // 128 and alarm in page.screen()["alarms"])
    at_once(page, 252)
    holds_image(page, image, len(image) // 128 - changed, 1024)
    same("flash before the working flash", page.flash()[:1024], b"\xff" * 1024)


def paused(page):
    """An upload in short frames, paused on its way, stands; one more frame is one more step."""
    page.fill("frames", 4)
    page.click("#begin")
    page.click("#all")
    page.wait("a page is written", lambda: page.js("return childbus.session.now.counts[0]") == 1)
    pause(page)
    holds("the upload was not stopped", page.js("return childbus.session.now.plan !== null"))
    steps = page.js("return childbus.session.steps.length")
    page.click("#next")
    same("steps", page.js("return childbus.session.steps.length"), steps + 1)


def pause(page, tries=8):
    """Pause, pressed until it is hit: the button may move with the alarms above it."""
    for _ in range(tries):
        page.click("#pause")
        if not page.js("return childbus.busy"):
            page.wait("the upload stands", lambda: page.js("return document.getElementById('pause').hidden"))
            return
    raise Wrong("Pause does not stop the upload")


def one_by_one(page, _):
    """A short upload: what is planned, accepted and waiting is told before each frame."""
    page.open()
    page.board("rs485", M=64, S=256)
    page.fill("image", "fill 22 100")
    page.fill("frames", 50)
    page.click("#begin")
    plans = []
    for _ in range(20):
        if page.js("return childbus.session.now.plan === null"):
            break
        plans.append(page.js("return [document.getElementById('plan-text').textContent, probe.now()]"))
        page.click("#next")
        same("one frame", page.js("return childbus.session.last.sent !== undefined"), True)
    phases = page.js("return childbus.session.steps.slice(2).map(step => step.plan.phase)")
    same("phases", phases, ["info", "write", "write", "finalize", "read", "read"])
    places = [re.search(r"(\d+) of (\d+) bytes? .*?(\d+) pages? erased, (\d+) bytes? waiting", text).groups() for text, _ in plans]
    want = [("0", "0", "0"), ("0", "0", "0"), ("50", "0", "50"), ("100", "1", "36"), ("0", "2", "0"), ("59", "2", "0")]
    same("how far the upload is", [(place[0], *place[2:]) for place in places], want)
    holds_image(page, b"\x22" * 100, 2)


def part(page, only=(dropped, chosen, one_by_one)):
    """A file of 65,472 bytes dropped and chosen, uploaded at once; a short one frame by frame."""
    path = image_file(page, 3)
    for test in only:
        try:
            test(page, path)
        except Wrong as wrong:
            raise Wrong(f"{test.__name__}: {wrong}") from wrong
    return f"{SIZE} bytes dropped, chosen, stopped and gone on with; 100 bytes frame by frame"
