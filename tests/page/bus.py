"""Damaged and lost frames and replies, power off and on, reads, general calls, on both buses, by the page's buttons. Alarms and
facts are as docs/BENCH.md says."""

import json
import re

from browser import ROOT, Wrong, holds, same

I2C, RS485 = "i2c", "rs485"
ALIVE = "the board is alive"
LOST = "% accepted bytes are lost: they neither wait nor stand in flash"
WAIT = "% bytes still wait in the board and are not in flash"
CRC_SILENCE = f"no reply: the check sum is wrong, {ALIVE}"
FOREIGN = "no reply: the address is another board's, this board is alive"
OWN = json.loads((ROOT / "page/words.json").read_text(encoding="utf-8"))["page"]
IN_VAIN = OWN["nothingCame"]
NO_READ, FIRST_READ, SECOND_READ = OWN["reads"]
ANY = None


def lost(n):
    return LOST.replace("%", str(n))


def waits(n, ok=True):
    return ("OK, " if ok else "") + WAIT.replace("%", str(n))


def expect(page, alarms=(), master=None, board=None, waiting=None, **facts):
    """The alarms are exactly these, or any; a sentence stands at the master, at the board; so many bytes wait; a fact begins so."""
    screen = page.screen()
    if alarms is not ANY:
        same("alarms", screen["alarms"], list(alarms))
    for side, text in (("master", master), ("board", board)):
        # where the page has what an advice names stands behind it
        said = [line.split(" (here: ")[0] for line in screen[side]]
        holds(f"{side} does not say {text!r}: {said}", text is None or text in said)
    if waiting is not None:
        same("waiting bytes", int((re.match(r"\d+", screen["waiting"]) or ["0"])[0]), waiting)
    for name, value in facts.items():
        found = screen["facts"][name.replace("_", " ")]
        holds(f"{name}: {found}, not {value}", re.match(rf"{value}\b", found))


def tally(page):
    """Answered, too short, too long, damaged, for others; on I2C only the first."""
    return [int(number) for number in re.findall(r"\d+", page.screen()["facts"]["tally"])]


def pressed(page, selector):
    return page.js("return document.querySelector(arguments[0]).getAttribute('aria-pressed')", selector) == "true"


def byte_text(page, selector):
    return page.js("return document.querySelector(arguments[0]).lastChild.textContent", selector)


def damage(page, key):
    """Clicks a byte, which turns all its bits over; a second click makes it whole again."""
    selector = f'[data-key="{key}"]'
    before = byte_text(page, selector)
    for want in (True, False, True):
        page.click(selector)
        same(f"{key} is damaged", pressed(page, selector), want)
        words = "will be damaged" if want else "stays whole"
        holds(f"{key}: the bus does not say {words}: {page.screen()['bus']}", any(words in text for text in page.screen()["bus"]))
    same(f"{key}, damaged", int(byte_text(page, selector)[:2], 16), int(before, 16) ^ 0xFF)


def write(page, at, data):
    page.send("write", flash_address=at, data=data)


def hold(page, on=True):
    if page.js("return document.getElementById('hold').checked") != on:
        page.click("#hold")


# ---- the tests: each on a fresh board with M 64 and S 256

def damaged_frames(page, bus):
    page.choose("command", "version")
    damage(page, "frame-1")
    before = page.snapshot()
    page.click("#send")
    after = page.snapshot()
    if bus == RS485:
        expect(page, [CRC_SILENCE], board="number 17, wrong check sum in the frame, nothing to send")
        same("tally", tally(page), [0, 0, 0, 1, 0])
        same("state and flash", (after["state"], after["flash"]), (before["state"], before["flash"]))
    else:
        expect(page, master="status 4, INVALID_CRC: the check sum is wrong, the board is alive")
        same("tally", tally(page), [1])
    page.click("#send")
    expect(page, master="status 0, OK: version 2.2, which counts as 2.2")
    # a damaged write changes nothing, and the same write is accepted afterwards
    write(page, 0, "fill 11 40")
    expect(page, [waits(40)], waiting=40, next_address=40)
    page.fill("flash-address", 40)
    page.fill("data", "0102")
    for key in ("frame-0", "frame-5"):
        damage(page, key)
    page.click("#send")
    expect(page, [CRC_SILENCE, waits(40, False)] if bus == RS485 else [waits(40, False)], waiting=40, next_address=40)
    page.click("#send")
    expect(page, [waits(42)], waiting=42, next_address=42)


def held_replies(page, bus):
    hold(page)
    page.send("version")
    reply = page.screen()["frame"]
    same("the reply on the bus", reply, "0800020202e4a0" if bus == RS485 else "0002020223")
    for name in ("send", "read-again") if bus == I2C else ("send",):
        holds(f"{name} can be pressed while a reply is on the bus", page.js("return document.getElementById(arguments[0]).disabled", name))
    damage(page, "reply-3")
    page.click("#arrive")
    again = "ask again: that changes nothing" if bus == RS485 else "read once more, with i2c-read: the board has kept the reply"
    expect(page, master="number 9, the reply's check sum is wrong")
    expect(page, master=f"do: {again}")
    page.send("version")
    page.click("#arrive")
    expect(page, master="status 0, OK: version 2.2, which counts as 2.2")
    # two damaged bytes, of which one makes the length wrong
    page.send("longest")
    damage(page, f"reply-{2 if bus == RS485 else 1}")
    damage(page, "reply-4")
    page.click("#arrive")
    expect(page, master="number 11, the length byte does not fit the reply")


def lost_replies(page, bus):
    hold(page)
    write(page, 0, "fill 5a 30")
    expect(page, [waits(30, False)], waiting=30, next_address=30)
    page.click("#lose-reply")
    expect(page, ANY, master=IN_VAIN, waiting=30)
    hold(page, False)
    # the same write again is refused, since the board took it
    page.send("write", flash_address=30, data="fill 5a 20")
    expect(page, [waits(50)], waiting=50)
    # the form goes on where the write ended
    same("the form's next address", page.js("return document.getElementById('flash-address').value"), "50")
    page.fill("flash-address", 30)
    page.click("#send")
    expect(page, [waits(50, False)], master="status 5, INVALID_ARGUMENTS: not allowed for this command; nothing was done", waiting=50)
    # a reply that is lost without being held
    page.choose("command", "finalize")
    page.click("#lose-next-reply")
    page.click("#send")
    expect(page, master=IN_VAIN, waiting=0, erase_count=1)
    page.click("#send")
    expect(page, master="status 0, OK: erase count 1", board="changed: nothing")


def lost_frames(page, bus):
    write(page, 0, "fill 11 20")
    before = page.snapshot()
    page.fill("flash-address", 20)
    page.click("#lose-frame")
    page.click("#send")
    after = page.snapshot()
    for name in ("state", "flash", "tally"):
        same(f"{name} after a lost frame", after[name], before[name])
    expect(page, ANY, master=IN_VAIN, waiting=20)
    page.click("#send")
    expect(page, [waits(40)], waiting=40, next_address=40)


def power(page, bus):
    write(page, 0, "fill 11 40")
    before = page.snapshot()
    page.click("#power")
    expect(page, [lost(40)], waiting=0, next_address=0)
    after = page.snapshot()
    same("flash", after["flash"], before["flash"])
    same("the board is fresh", after["state"], page.js("return probe.hexOf(childbus.library.fresh())"))
    same("tally", tally(page), [0] if bus == I2C else [0] * 5)
    page.click("#power")
    expect(page, [])


def general_calls(page, bus):
    page.send("set-address", new_address=42, type=7)
    expect(page, master="the master sends to 42 from now on", listens_to=42)
    write(page, 0, "fill 11 10")
    page.send("reset-address")
    done = "a general call goes to all boards: none replies"
    expect(page, [waits(10, False)], board=done, waiting=10, next_address=10, listens_to="8 to 15")
    same("where the master sends to", page.snapshot()["to"], 8)
    page.send("reset")
    expect(page, [lost(10)], board=done, waiting=0, next_address=0)
    counts = tally(page)
    # a general call that is neither: nobody's
    page.send("send", raw="00 00 01 b0" if bus == RS485 else "00 00 f3")
    expect(page, [f"no reply: all boards take only reset and reset-address, {ALIVE}"], board="number 1, nothing to send")
    same("tally", tally(page), counts)
    # a damaged reset resets nothing
    write(page, 0, "fill 11 10")
    page.choose("command", "reset")
    damage(page, "frame-0")
    page.click("#send")
    expect(page, ANY, waiting=10, next_address=10)
    holds("no alarm", page.screen()["alarms"][0].startswith("no reply: "))


def lost_bytes(page, bus):
    write(page, 0, "fill 11 40")
    write(page, 0, "22")
    expect(page, [lost(40), "OK, 1 byte still waits in the board and is not in flash"], waiting=1)
    page.send("start")
    expect(page, ["1 accepted byte is lost: it neither waits nor stands in flash"], board="start has no reply", runs="the application")
    page.send("reset")
    expect(page, runs="the bootloader")
    # the same bytes again are not lost, nor are those that stand in flash already
    write(page, 0, "fill 33 20")
    write(page, 0, "fill 33 20")
    expect(page, [waits(20)], waiting=20)
    page.send("finalize")
    expect(page, waiting=0, erase_count=1)
    write(page, 0, "fill 33 20")
    page.send("finalize")
    expect(page, ["0 pages erased: the flash held these bytes already, nothing was worn"], erase_count=0)
    # another board
    write(page, 0, "fill 44 30")
    page.board(bus, M=32)
    expect(page, [lost(30)], waiting=0)
    # flash that is filled under waiting bytes
    page.fill("flash-address", 0)
    page.fill("data", "fill 44 20")
    page.choose("command", "write")
    page.click("#send")
    page.click("#show-board")
    page.fill("set-fill", "44")
    page.click("#set-flash")
    expect(page, [waits(20, False)], waiting=20)
    page.click("#power")
    expect(page, [], waiting=0)


def addresses(page, bus):
    page.send("set-address", new_address=42, type=9)
    expect(page, ["no reply: the hardware type is another board's, this board is alive"], board="number 1, nothing to send")
    page.send("set-address", new_address=0 if bus == RS485 else 7, type=7)
    expect(page, master="number 7, request argument out of range, or a command that is not served")
    page.send("set-address", new_address=42, type=0)
    expect(page, master="the master sends to 42 from now on", listens_to=42)
    page.fill("to", 8)
    page.send("version")
    number = "number 18, foreign address in the frame, nothing to send" if bus == RS485 else "number 1, nothing to send"
    expect(page, [FOREIGN], board=number)


def raw_frames(page, bus):
    page.choose("command", "send")
    if bus == I2C:
        page.send("send", raw="08 00")
        expect(page, master="status 3, INVALID_TRANSFER: the frame has under 2 or over M bytes")
        page.send("send", raw="08" + "00f3" * 33)
        expect(page, master="status 3, INVALID_TRANSFER: the frame has under 2 or over M bytes")
        page.send("send", raw="14 00 f3")
        expect(page, [FOREIGN], board="number 1, nothing to send")
        same("tally", tally(page), [2])
        return
    cases = [("08 00", 15, f"no reply: the frame is shorter than any request, {ALIVE}"),
             ("08" + "11" * 64, 16, f"no reply: the frame is longer than M, {ALIVE}"),
             ("08 00 06 71", 17, CRC_SILENCE), ("20 00 18 71", 17, CRC_SILENCE),
             ("20 00 18 70", 18, FOREIGN)]
    for raw, number, alarm in cases:
        page.send("send", raw=raw)
        expect(page, [alarm])
        holds(f"number {number}", any(text.startswith(f"number {number}, ") for text in page.screen()["board"]))
        holds("nothing to look for", any(text.startswith("look for: ") for text in page.screen()["advice"]))
    same("tally", tally(page), [0, 1, 1, 2, 1])
    page.click("#clear-tally")
    same("tally", tally(page), [0] * 5)


def reads(page, bus):
    if bus == RS485:
        holds("a read on RS485", page.js("return document.getElementById('read-again').hidden"))
        page.line("i2c-read")
        expect(page, ["nothing to read, and that is no dead board"])
        return
    page.click("#read-again")
    expect(page, ["nothing to read, and that is no dead board"], board="number 1, nothing to send")
    page.send("version")
    for _ in range(2):
        page.click("#read-again")
        expect(page, master=FIRST_READ)
    same("tally: reads are no frames", tally(page), [1])
    # the first read is damaged, then both
    hold(page)
    page.send("version")
    damage(page, "reply-2")
    page.click("#arrive")
    page.click("#read-again")
    expect(page, master=SECOND_READ)
    expect(page, master="status 0, OK: version 2.2, which counts as 2.2")
    page.send("version")
    damage(page, "reply-2")
    page.click("#arrive")
    page.line("damage reply 1")
    page.click("#read-again")
    expect(page, master=NO_READ)
    # the first is lost; and bytes wait all the while
    write(page, 0, "fill 5a 10")
    page.click("#lose-reply")
    page.click("#read-again")
    expect(page, [waits(10)], master=SECOND_READ)
    page.line("i2c-read 20")
    expect(page, ANY, board="number 1, nothing to send")
    same("alarm of the read", page.screen()["alarms"][0], "nothing to read, and that is no dead board")


def application(page, bus):
    page.send("start")
    expect(page, runs="the application, which is silent")
    page.send("version")
    expect(page, [f"no reply: the application runs, {ALIVE}"], board="number 1, nothing to send")
    page.click("#application")
    page.send("version")
    expect(page, master="number 40, the application runs; the board is not faulty")
    same("tally: the application's replies are not counted", sum(tally(page)), 0)
    if bus == I2C:
        page.click("#read-again")
        expect(page, master="status 0, OK: version 0.0")
    page.send("write", flash_address=0, data="55")
    expect(page, [f"no reply: the application runs, {ALIVE}"])
    page.click("#reset-running")
    for phase in ("version", "reset", "again"):
        same("phase", page.js("return childbus.session.now.plan?.phase"), phase)
        page.click("#next")
    expect(page, master="the bootloader answers", runs="the bootloader")


def page_bytes(page, bus):
    """A page's bytes: before it was last rewritten, now, and as finalize will make them."""
    page.board(bus, M=64, S=256, O=128)
    for fill in ("11", "22", "33"):
        write(page, 0, f"fill {fill} 20")
        if fill != "33":
            page.send("finalize")
    page.click('[data-key="page-0"]')
    flash = page.flash()[128:192]
    same("flash", flash, b"\x22" * 20 + b"\xff" * 44)
    tables = page.js("""return Array.from(document.querySelectorAll('#page-bytes table'),
        table => Array.from(table.querySelectorAll('td'), cell => cell.textContent).join(''))""")
    same("old, new and coming bytes", tables, [(bytes([fill]) * 20 + b"\xff" * 44).hex() for fill in (0x11, 0x22, 0x33)])
    same("the page's mark", page.screen()["marks"][0], "2!w")
    unlike = page.js(
        "return Array.from(document.querySelectorAll('#page-bytes table'), table => table.querySelectorAll('.unlike').length)")
    same("bytes that are marked as other ones", unlike, [0, 20, 20])


TESTS = (
    damaged_frames, held_replies, lost_replies, lost_frames, power, general_calls, lost_bytes, addresses, raw_frames, reads, application,
    page_bytes,
)


def part(page, only=TESTS, buses=(I2C, RS485)):
    """Damage, losses, power, reads and general calls by clicks, on both buses."""
    for bus in buses:
        for test in only:
            page.open()
            page.board(bus, M=64, S=256)
            try:
                test(page, bus)
            except Wrong as wrong:
                raise Wrong(f"{test.__name__} on {bus}: {wrong}") from wrong
    return f"{len(only)} tests on each bus"
