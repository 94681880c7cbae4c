"""Back and forward through everything, a new step in the past, and the steps that it put aside."""

from browser import holds, same

# Some sixty steps of every kind, on both buses.
LINES = """
board i2c M 256 S 1024 serial 0a0b
version
info
write 0 fill 11 70
damage byte 2
write 70 fill 22 10
write 70 fill 22 10
read 60 10
lose frame
finalize
damage reply 3
finalize
i2c-read
hold on
version
arrive
revision
damage reply 2
lose reply
hold off
set-address 42 type 7
write 0 fill 33 40
write 0 44
tally clear
start
version
application answers
version
i2c-read
reset
serial
board rs485 M 64 page 128 S 1024 O 256 type 9 serial 010203
serial
write 0 fill 55 50
write 50 fill 56 50
write 100 fill 57 50
flash fill 00
finalize
read 0 32
send 08 00
send 20 00 18 70
send 08 00 06 71
send 08 11 11 11 11 11 11 11 11 11 11 11 11 11 11 11 11 11 11 11 11 11 11 11 11 11 11 11 11 11 11 11 11 11 11 11 11 11 11 11 11 11 11 11
to 9
version
set-address 300 type 7
set-address 99 type 0
upload fill 66 150 frames 58
next
next
next
next
next
next
next
upload fill 77 300 frames 50
next
next
next
stop
write 0 fill 88 20
power
flash file lessons/image.bin
reset-address
version
damage byte 1 after 2
start
reset-running
next
reset
""".split("\n")[1:-1]


def all_lines(page, lines):
    """Does the lines; what was seen and held after each, and before the first."""
    seen = [page.snapshot()]
    for line in lines:
        before = page.js("return childbus.session.at")
        page.line(line)
        holds(f"{line}: {page.message()}", page.js("return childbus.session.at") == before + 1)
        seen.append(page.snapshot())
    return seen


def compare(page, seen, place):
    now = page.snapshot()
    for name, value in seen[place].items():
        same(f"step {place}: {name}", now[name], value)


def walk(page, seen, places, button):
    """Presses a button for each place, and compares what is seen there."""
    for place in places:
        page.click(button)
        compare(page, seen, place)


def jump(page, seen, place):
    """By its line under 'What happened'."""
    page.click(f'[data-key="step-{place}"]')
    compare(page, seen, place)


def new_step(page, seen, lines, back):
    """A new step in the past puts the later ones aside; they can be brought back, and then the new one."""
    count = len(lines)
    for _ in range(back):
        page.click("#back")
    page.line("write 0 fill 99 12")
    same("place", page.screen()["place"], f"step {count - back + 1} of {count - back + 1}")
    new = page.snapshot()
    holds("forward after a new step", page.js("return document.getElementById('forward').disabled"))
    holds(f"restore is not of {back} steps", str(back) in page.js("return document.getElementById('restore').textContent"))
    page.click("#restore")
    compare(page, seen, count - back)
    walk(page, seen, range(count - back + 1, count + 1), "#forward")
    same("lines", page.js("return childbus.session.lines()"), lines)
    page.click("#restore")
    page.click("#forward")
    same("the new step, brought back", page.snapshot(), new)
    page.click("#restore")
    walk(page, seen, range(count - back + 1, count + 1), "#forward")


def part(page, lines=tuple(LINES), back=9):
    """Back to the beginning and forward again: all is as it was after each step."""
    lines = list(lines)
    page.open()
    seen = all_lines(page, lines)
    count = len(lines)
    holds("the flash hardly changes in these steps", len({one["flash"] for one in seen}) > count // 8)
    walk(page, seen, range(count - 1, -1, -1), "#back")
    holds("back at the beginning", page.js("return document.getElementById('back').disabled"))
    walk(page, seen, range(1, count + 1), "#forward")
    for place in (count - 5, max(1, count - 12), max(2, count - 20)):
        jump(page, seen, place)
    page.click(f'[data-key="step-{min(count, max(2, count - 20) + 11)}"]')
    page.click(f'[data-key="step-{count}"]')
    new_step(page, seen, lines, back)
    return f"{count} steps back and forward, a new one in the past, and the others brought back"
