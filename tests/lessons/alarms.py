#!/usr/bin/env python3
"""Random scripts through the bench, its alarms, pages, numbers from 15 up and tally held to a small board of our own in Python.

The alarms and the count are proved as functions; that the bench asks them about the right call, state and flash is tested here.
    tests/lessons/alarms.py BENCH SEED SCRIPTS
"""
import random
import re
import subprocess
import sys
import tempfile

PAGES = (64, 128)
LONGEST = 64
DROPPED = (15, 16, 17, 18)
ENDS = ("upload done", "holds the whole image", "partly uploaded", "not uploaded", "not begun")
PAGED = ("still wait", "pages", "since the first write", "map")
RESETS = ("the bootloader answers", "the bootloader runs already", "the application still runs", "no version came after", "no version came:")


def crc8(data):
    """x^8 + x^2 + x + 1, from 0xff."""
    register = 0xff
    for b in data:
        register ^= b
        for _ in range(8):
            register = (register << 1) ^ (0x107 if register & 0x80 else 0)
    return bytes([register])


def crc16(data):
    """As Modbus has it, the low byte first."""
    register = 0xffff
    for b in data:
        register ^= b
        for _ in range(8):
            register = (register >> 1) ^ (0xa001 if register & 1 else 0)
    return register.to_bytes(2, "little")


class Board:
    """A board in the default range, and the master beside it: what it holds, and what a frame does to it."""

    def __init__(self, flash):
        self.flash = flash
        self.setup("i2c", 64, 1024, 0)
        self.hit = {"byte": None, "reply": None}
        self.silences = 0

    def setup(self, bus, page, size, offset):
        self.bus, self.page, self.size, self.offset = bus, page, size, offset
        self.restart_map()
        self.fresh()
        self.last, self.answers = 0, False
        self.clear_tally()

    def restart_map(self):
        """How often each page was rewritten, and which pages the last line rewrote."""
        self.times, self.rewritten = [0] * (self.size // self.page), []

    def map(self):
        """The rows of the map: the address of each, and its marks."""
        marks = [".123456789"[n] if n < 10 else "+" for n in self.times]
        if self.held:
            marks[self.next // self.page] = "w"
        return [(k * self.page, "".join(marks[k:k + 32])) for k in range(0, len(marks), 32)]

    def clear_tally(self):
        self.tally = {n: 0 for n in (0, *DROPPED)}

    def fresh(self):
        self.next, self.count, self.held, self.running, self.last = 0, 0, b"", False, 0
        self.answered = False

    def place(self):
        return self.next - len(self.held)

    def commit(self):
        at = self.offset + self.place()
        if self.flash[at:at + len(self.held)] != self.held:
            self.flash[at:at + len(self.held)] = self.held
            self.count += 1
            self.times[self.place() // self.page] += 1
            self.rewritten.append(self.place() // self.page)
        self.held = b""

    def strikes(self, what, length):
        """Whether this frame or reply is damaged: it is, if the byte is there."""
        if self.hit[what] is None:
            return False
        byte, after = self.hit[what]
        if after:
            self.hit[what] = (byte, after - 1)
            return False
        self.hit[what] = None
        return byte <= length

    def exchange(self, command, data=b""):
        """One frame to the board; (status or None, whether it was an OK to finalize)."""
        length = {"write": 3, "read": 4}.get(command, 1) + len(data) + (1 if self.bus == "i2c" else 3)
        damaged = self.strikes("byte", length)
        if self.running and self.answers and command == "version" and not damaged:
            self.answered = True
            return self.sent(0, 2), False
        if self.running:
            self.silences += 1
            return None, False
        if damaged:
            return (self.dropped(17) if self.bus == "rs485" else self.replied(4, 0)), False
        if command == "start":
            self.running, self.held, self.last = True, b"", 0
            return None, False
        status, results, finalized = self.execute(command, data)
        return self.replied(status, results), finalized

    def reply_length(self, results):
        return results + (3 if self.bus == "i2c" else 5)

    def dropped(self, number):
        """A frame without a reply, by its number from 15 up."""
        self.silences += 1
        self.tally[number] += 1
        self.numbers.append(number)

    def replied(self, status, results):
        self.tally[0] += 1
        self.last = self.reply_length(results) if self.bus == "i2c" else 0
        return self.sent(status, results)

    def sent(self, status, results):
        return None if self.strikes("reply", self.reply_length(results)) else status

    def readable(self):
        """How long the reply is that an I2C read gets; 0 for none."""
        if self.bus != "i2c":
            return 0
        if self.running:
            return self.reply_length(2) if self.answered else 0
        return self.last

    def general(self, reset):
        """A general call, damaged perhaps: then it is none, on I2C another byte to address 0, on RS485 a wrong check sum."""
        damaged = self.strikes("byte", 1 if self.bus == "i2c" else 4)
        if reset and not damaged:
            self.fresh()
        elif damaged and not self.running and self.bus == "rs485":
            self.dropped(17)
        elif self.running or damaged:
            self.silences += 1
        else:
            self.last = 0

    def judged(self, to, frame):
        """A frame to a bootloader, perhaps not well made: its number, and the status of a reply."""
        if self.bus == "rs485":
            if len(frame) < 4:
                return 15, None
            if len(frame) > LONGEST:
                return 16, None
            if crc16(frame[:-2]) != frame[-2:]:
                return 17, None
            if frame[0] == 0:
                return 1, None
            return (0, 0 if len(frame) == 4 else 5) if 8 <= frame[0] <= 15 else (18, None)
        if not 8 <= to <= 15:
            return 1, None
        if not 2 <= len(frame) <= LONGEST:
            return 0, 3
        if crc8(frame[:-1]) != frame[-1:]:
            return 0, 4
        return 0, 0 if len(frame) == 2 else 5

    def raw(self, to, frame):
        """A version request as it is, well made or not."""
        byte = self.hit["byte"]
        if self.strikes("byte", len(frame)):
            frame[byte[0] - 1] ^= 0xff
        number, status = self.judged(to, frame)
        if self.running and self.answers and status == 0:
            self.answered = True
            self.sent(0, 2)
        elif self.running or number == 1:
            self.silences += 1
        elif number:
            self.dropped(number)
        else:
            self.replied(status, 0 if status else 2)

    def execute(self, command, data):
        if command == "write":
            if self.at not in (0, self.next) or self.at + len(data) > self.size:
                return 5, 0, False
            if self.at == 0:
                self.next, self.count, self.held = 0, 0, b""
            for b in data:
                self.held += bytes([b])
                self.next += 1
                if self.next % self.page == 0:
                    self.commit()
            return 0, 0, False
        if command == "finalize":
            if self.held:
                self.commit()
            return 0, 2, True
        if command == "info":
            return 0, 5, False
        if command == "read":
            return 0, self.length, False
        return 0, 2, False


class Expected:
    def __init__(self):
        self.lost, self.waiting, self.unworn, self.end, self.silent = [], [], 0, None, 0
        self.numbers, self.tally = [], None
        self.pages, self.since, self.map = [], None, None


def lost(board, place, held):
    """How many of the bytes that waited are neither waiting nor in flash at their place."""
    n = 0
    for i, b in enumerate(held):
        k = place + i - board.place()
        waits = 0 <= k < len(board.held) and board.held[k] == b
        n += not waits and board.flash[board.offset + place + i] != b
    return n


def call(board, e, command, data=b""):
    place, held = board.place(), board.held
    status, finalized = board.exchange(command, data)
    n = lost(board, place, held)
    if n:
        e.lost.append(n)
    if finalized and board.count == 0:
        e.unworn += 1
    return status


def reset_running(board, e):
    if call(board, e, "version") != 0:
        e.end = "no version came:"
        return
    if not board.running:
        e.end = "the bootloader runs already"
        return
    board.general(reset=True)
    if call(board, e, "version") != 0:
        e.end = "no version came after"
    else:
        e.end = "the application still runs" if board.running else "the bootloader answers"


def upload(board, e, data, frame):
    if call(board, e, "info") != 0 or len(data) > board.size:
        e.end = "not begun"
        return
    before = bytes(board.flash)
    fine = True
    at = 0
    while fine and at < len(data):
        board.at = at
        fine = call(board, e, "write", data[at:at + frame]) == 0
        at += frame
    fine = fine and call(board, e, "finalize") == 0
    step = 64 - (3 if board.bus == "i2c" else 5)
    at = 0
    while fine and at < len(data):
        board.length = min(step, len(data) - at)
        fine = call(board, e, "read") == 0
        at += step
    whole = board.flash[board.offset:board.offset + len(data)] == data
    if fine and whole:
        e.end = "upload done"
    elif whole:
        e.end = "holds the whole image"
    else:
        starts = range(board.offset, board.offset + board.size, board.page)
        e.since = [k for k, at in enumerate(starts) if board.flash[at:at + board.page] != before[at:at + board.page]] or None
        e.end = "partly uploaded" if e.since else "not uploaded"


def line(board, rng, kind=None):
    """A line of a script, of a kind perhaps, and what the bench must say after it."""
    e = Expected()
    silences = board.silences
    board.numbers, board.rewritten = e.numbers, []
    text = make_line(board, rng, e, kind)
    e.page, e.pages = board.page, None if text.startswith("upload") else board.rewritten
    e.silent = board.silences - silences
    return text, e


def show_tally(board):
    e = Expected()
    e.tally = list(board.tally.values())
    return "tally", e


def raw_frame(board, rng):
    """A version request to some address, sent as it is: whole, cut, damaged, or with arguments up to M or beyond it.

    The address beside it, the frame, and the line.
    """
    to = rng.choice([8, 8, 9, 15, 16, 7, 42, 0])
    change = rng.choice(["none", "none", "cut", "damaged", "long"])
    head, crc, shortest = (bytes([to]), crc16, 4) if board.bus == "rs485" else (b"", crc8, 2)
    length = rng.choice([LONGEST, LONGEST + 1, LONGEST + 60]) if change == "long" else shortest
    frame = head + bytes([0]) + b"\x11" * (length - shortest)
    frame = bytearray(frame + crc(frame))
    if change == "cut":
        del frame[rng.randint(len(head), len(frame) - 1):]
    elif change == "damaged":
        frame[-1] ^= rng.randint(1, 255)
    shown = frame if head else bytes([to]) + frame
    return to, frame, f"send {shown.hex()}"


def make_line(board, rng, e, kind):
    often = ["write"] * 8 + ["finalize"] * 3 + ["upload"] * 3 + ["damage"] * 4 + ["reset"] * 2 + ["send"] * 6
    seldom = ["start", "reset-address", "version", "read-again", "board", "flash", "application", "reset-running", "tally", "map"]
    kind = kind or rng.choice(often + seldom)
    if board.running and rng.random() < 0.5:
        kind = rng.choice(["application", "damage", "damage", "version", "read-again", "reset-running", "reset-running", "send"])
    byte = rng.choice([0x00, 0x11, 0x22, 0xff])
    if kind == "board":
        place, held, offset = board.place(), board.held, board.offset
        bus, page = rng.choice(["i2c", "rs485"]), rng.choice(PAGES)
        size, new = page * rng.choice([2, 3, 4, 66]), page * rng.choice([0, 1, 2])
        n = sum(board.flash[offset + place + i] != b for i, b in enumerate(held))
        board.setup(bus, page, size, new)
        e.lost = [n] if n else []
        words = [f"S {size}", f"O {new}"] + ([] if page == 64 and rng.random() < 0.5 else [f"page {page}"])
        rng.shuffle(words)
        return f"board {bus} {' '.join(words)}"
    if kind == "flash":
        board.flash[:] = bytes([byte]) * len(board.flash)
        board.restart_map()
        e.waiting = [len(board.held)] if board.held else []
        return f"flash fill {byte:02x}"
    if kind == "damage":
        what, n, after = rng.choice(["byte", "reply"]), rng.randint(1, 6), rng.choice([0, 0, 0, 1, 2, 3, 4, 5, 6])
        if board.running:
            # the reset of a reset-running is its second frame, and has one byte on I2C
            n, after = rng.choice([1, 1, n]), rng.choice([1, 1, after])
        board.hit[what] = (n, after)
        return f"damage {what} {n}" + (f" after {after}" if after else "")
    if kind == "tally":
        if rng.random() < 0.3:
            board.clear_tally()
            return "tally clear"
        text, shown = show_tally(board)
        e.tally = shown.tally
        return text
    if kind == "map":
        e.map = board.map()
        return kind
    if kind == "application":
        board.answers, board.answered = rng.random() < 0.7, False
        return f"application {'answers' if board.answers else 'silent'}"
    if kind == "upload":
        data, frame = bytes([byte]) * rng.randint(1, 4 * board.page + 14), rng.choice([20, 40, 58])
        upload(board, e, data, frame)
        e.waiting = None
        return f"upload fill {byte:02x} {len(data)} frames {frame}"
    if kind == "read-again":
        if board.readable():
            board.strikes("reply", board.readable())
        else:
            board.silences += 1
        text = "i2c-read"
    elif kind == "send":
        to, frame, text = raw_frame(board, rng)
        board.raw(to, frame)
    elif kind == "reset-running":
        text = kind
        reset_running(board, e)
    elif kind == "write":
        board.at = rng.choice([0, board.next, board.next, rng.randint(0, 250)])
        data = bytes([byte]) * rng.randint(0, 58)
        text = f"write {board.at} fill {byte:02x} {len(data)}"
        call(board, e, "write", data)
    elif kind in ("reset", "reset-address"):
        text = kind
        place, held = board.place(), board.held
        board.general(reset=kind == "reset")
        n = lost(board, place, held)
        e.lost = [n] if n else []
    else:
        text = kind
        call(board, e, kind)
    e.waiting = [len(board.held)] if board.held else []
    return text


def said(text):
    e = Expected()
    e.lost = [int(n) for n in re.findall(r"\*\* (\d+) accepted bytes? (?:is|are) lost", text)]
    e.waiting = [int(n) for n in re.findall(r"\*\* (?:OK, )?(\d+) bytes? still wait", text)]
    e.unworn = len(re.findall(r"\*\* 0 pages erased:", text))
    e.silent = len(re.findall(r"\*\* (?:no reply: |nothing to read)", text))
    e.numbers = [int(n) for n in re.findall(r"^  number (1[5-8]), ", text, flags=re.M)]
    e.tally = [int(n) for n in re.findall(r"^    (?:answered 0|1[5-8] [a-z ]+): (\d+)", text, flags=re.M)] or None
    e.pages = [int(k) for k in re.findall(r"^  changed: page (\d+) erased and rewritten$", text, flags=re.M)]
    since = re.search(r"^  changed since the first write: page((?: \d+)+)$", text, flags=re.M)
    e.since = [int(k) for k in since[1].split()] if since else None
    e.map = [(int(at), marks) for at, marks in re.findall(r"^ {2,6}(\d+)  ([.1-9+w]+)$", text, flags=re.M)] or None
    ends = [w for w in ENDS + RESETS if w in text]
    e.end = ends[0] if len(ends) == 1 else (ends or None)
    return e


def run(bench, lines):
    """What the bench says to a script, and its status."""
    with tempfile.NamedTemporaryFile("r") as status:
        ran = subprocess.run([bench, "-", status.name], input="".join(t + "\n" for t in lines), capture_output=True, text=True, check=True)
        return ran.stdout, int(status.read())


def main():
    bench, seed, scripts = sys.argv[1], int(sys.argv[2]), int(sys.argv[3])
    rng = random.Random(seed)
    seen = {}
    for k in range(scripts):
        board = Board(bytearray(b"\xff" * 131072))
        begin = [line(board, rng, "board")] if rng.random() < 0.7 else []
        steps = begin + [line(board, rng) for _ in range(rng.randint(5, 40))] + [show_tally(board)]
        out, status = run(bench, [t for t, _ in steps])
        failed = any(e.end in ENDS[1:] for _, e in steps)
        alarmed = failed or board.silences or board.held or any(e.lost for _, e in steps)
        if status != (3 if alarmed else 0):
            sys.exit(f"script {k} of seed {seed}: status {status}")
        chunks = re.split(r"^> .*\n", out, flags=re.M)[1:]
        chunks[-1] = re.split(r"^  the script ends\n", chunks[-1], flags=re.M)[0]
        for i, ((text, e), chunk) in enumerate(zip(steps, chunks)):
            got = said(chunk)
            parts = [("lost", e.lost, got.lost), ("0 pages erased", e.unworn, got.unworn), ("end", e.end, got.end), ("silent", e.silent, got.silent)]
            parts += [(f"number {n}", e.numbers.count(n), got.numbers.count(n)) for n in DROPPED] + [("tally", e.tally, got.tally)]
            parts += [("since the first write", e.since, got.since), ("map", e.map, got.map)]
            if e.pages is not None:
                parts.append(("pages", e.pages, got.pages))
            if e.waiting is not None:
                parts.append(("still wait", e.waiting, got.waiting))
            for name, want, have in parts:
                if want:
                    case = want if name == "end" else f"{name} of {e.page}" if name in PAGED else name
                    seen[case] = seen.get(case, 0) + 1
                if want != have:
                    print(f"script {k} of seed {seed}, line {i + 1}, {text}: {name} {have}, not {want}")
                    print("\n".join(t for t, _ in steps[:i + 1]))
                    print(chunk)
                    sys.exit(1)
        if len(chunks) != len(steps):
            sys.exit(f"script {k} of seed {seed}: {len(chunks)} lines of {len(steps)} were run")
    print(f"{scripts} scripts, alarms as expected: " + ", ".join(f"{n} {c}" for n, c in sorted(seen.items())))
    cases = {"lost", "0 pages erased", "silent", "tally", *ENDS, *RESETS}
    missing = (cases | {f"number {n}" for n in DROPPED} | {f"{name} of {page}" for name in PAGED for page in PAGES}) - set(seen)
    if missing and scripts >= 100:
        sys.exit(f"never seen: {missing}")


if __name__ == "__main__":
    main()
