"""Random steps in the page, and the same calls through the x86-64 library (calls.c): every byte is the same."""

import random
import subprocess

from browser import ROOT, Wrong, holds, same
from lessons import is_shown

CODES = {"version": 0x00, "info": 0x03, "serial": 0x04, "start": 0x05, "finalize": 0x07, "revision": 0x09, "longest": 0x0C}
NUMBERS = {0, 1, 15, 16, 17, 18}
STATUSES = {0, 2, 3, 4, 5}
ALL = 1000
SETTINGS = ("power", "tally clear", "flash fill ff", "flash fill 5a", "flash file lessons/image.bin", "hold on", "hold off")


# ---- random lines

class Lines:
    """Random lines, with an eye on what the board and its master are now."""

    def __init__(self, seed):
        self.random = random.Random(seed)

    def pick(self, *choices):
        return self.random.choice(choices)

    def one_in(self, n):
        return self.random.randrange(n) == 0

    def data(self, most):
        count = self.random.randint(0, max(0, most)) if self.one_in(4) else self.random.randint(1, max(1, min(most, 40)))
        if self.one_in(2):
            return f"fill {self.random.randrange(256):02x} {count}"
        return self.random.randbytes(max(1, count)).hex()

    def board(self, now):
        bus, page = self.pick("i2c", "rs485"), self.pick(64, 128)
        pages = self.pick(1, 2, 4, 9, 16)
        offset = page * self.pick(0, 0, 1, 5, 300)
        serial = f" serial {self.random.randbytes(self.random.randint(1, 16)).hex()}" if self.one_in(2) else ""
        kind = self.random.randint(1, 255)
        return f"board {bus} M {self.pick(32, 33, 64, 100, 256)} page {page} S {page * pages} O {offset} type {kind}{serial}"

    def write(self, now):
        most = now["longest"] - (6 if now["bus"] else 4)
        at = now["next"] if not self.one_in(5) else self.pick(0, 0, now["next"] + 1, now["size"] - 3, self.random.randrange(65536))
        room = now["size"] - now["next"]
        if at == now["next"] and room <= 0:
            at, room = 0, now["size"]
        return f"write {at} {self.data(min(most, room) if not self.one_in(8) else most + 1)}"

    def read(self, now):
        most = now["longest"] - (5 if now["bus"] else 3)
        at = self.random.randrange(now["size"] + (9 if self.one_in(6) else 0))
        return f"read {at} {self.random.randint(0, self.pick(8, most, most + 1))}"

    def ask(self, now):
        return self.pick("version", "info", "serial", "revision", "longest")

    def plain(self, now):
        return self.pick("finalize", "finalize", "finalize", "start", "reset", "reset-address", "reset-running")

    def setting(self, now):
        return self.pick(*SETTINGS)

    def to(self, now):
        home = now["own"] if now["own"] is not None else self.random.randint(8, 15)
        return f"to {self.random.randrange(256) if self.one_in(6) else home}"

    def set_address(self, now):
        address = self.random.randint(1, 130) if self.one_in(3) else self.random.randint(16, 119)
        return f"set-address {address} type {self.pick(0, now['hardware'], now['hardware'], 9)}"

    def damage(self, now):
        later = f" after {self.random.randint(1, 3)}" if self.one_in(4) else ""
        return f"damage {self.pick('byte', 'byte', 'reply')} {self.random.randint(1, 9)}{later}"

    def lose(self, now):
        return f"lose {self.pick('frame', 'reply')}{self.pick('', '', ' after 1')}"

    def good(self, now, address):
        """A whole frame: for this board, for others, and for all."""
        if now["bus"]:
            return self.pick("08 00 06 70", "20 00 18 70", "00 00 01 b0", "00 46 80 42", "00 44 01 83")
        return self.pick(f"{address:02x} 00 f3", f"{address:02x} 07 e6", "00 04", "00 06", "14 00 f3")

    def raw(self, now):
        """A frame as it is: whole, too short, too long, or of any bytes."""
        home = now["own"] if now["own"] is not None else self.random.randint(8, 15)
        address = self.pick(home, home, home, 0, 32, self.random.randrange(256))
        longest = now["longest"]
        lengths = {"short": (0, 1, 2), "long": (longest, longest + 1, longest + 9), "any": (3, 4, 7, self.random.randint(1, 40))}
        kind = self.pick("good", *lengths)
        if kind == "good":
            return f"send {self.good(now, address)}"
        return f"send {address:02x} {self.random.randbytes(self.pick(*lengths[kind])).hex()}"

    def upload(self, now):
        most = now["longest"] - (6 if now["bus"] else 4)
        size = self.random.randint(1, min(300, now["size"] + (20 if self.one_in(4) else 0)))
        image = f"fill {self.random.randrange(256):02x} {size}" if self.one_in(2) else self.random.randbytes(size).hex()
        return f"upload {image} frames {self.random.randint(max(1, most // 3), most)}"

    def i2c_read(self, now):
        return self.pick("i2c-read", "i2c-read", f"i2c-read {self.pick(8, 9, 20, 0)}")

    def held(self, now):
        return self.pick("arrive", "arrive", "lose reply", f"damage reply {self.random.randint(1, 6)}", "power")

    def line(self, now):
        if now["onBus"]:
            return self.held(now)
        if now["planned"] and not self.one_in(4):
            return "next" if not self.one_in(25) else "stop"
        if now["running"] and self.one_in(4):
            return self.pick("reset", "reset", "reset-running", "application answers", "application silent", "version")
        kinds = {
            self.write: 24, self.read: 8, self.ask: 9, self.to: 6, self.set_address: 4, self.damage: 9, self.lose: 4, self.raw: 10,
            self.upload: 3, self.i2c_read: 5, self.board: 3, self.plain: 13, self.setting: 5,
        }
        make = self.random.choices(list(kinds), list(kinds.values()))[0]
        return make(now)


RUN = """
    const { session } = childbus;
    const before = session.steps.length;
    childbus.run(arguments[0]);
    const dump = session.steps.length > before ? probe.dump(session.last) : null;
    return [dump, probe.now(), probe.screen(), probe.last()];
"""


def is_enough(steps, count):
    """So many steps; and some more, as long as a number or a status is not reached."""
    return len(steps) >= count and (count < ALL or missing(steps) == "" or len(steps) >= 2 * count)


def play(page, seed, count):
    """Random steps in the page: what each was and left, with what was known before it. What is told of it stands on the screen."""
    lines = Lines(seed)
    steps, now = [], page.js("return probe.now()")
    while not is_enough(steps, count):
        line = lines.line(now)
        dump, after, screen, last = page.js(RUN, line)
        if dump:
            is_shown(screen, last)
            steps.append({**dump, "before": now})
        else:
            holds(f"{line}: refused without a word", screen["message"].startswith("Not done, and nothing has changed: "))
        now = after
    return steps


def reopened(page):
    """All steps as a case, opened in a new page, leave the same board."""
    want = page.snapshot()
    text = page.js("return caseText(childbus.session.lines())")
    page.open()
    page.js("childbus.openCase(arguments[0])", text)
    holds(f"the case: {page.message()}", page.message().startswith("The case is open"))
    same("the board of the opened case", page.snapshot(), want)


# ---- the same calls as text, with the answers that are expected

def number_of(word):
    return int(word, 16 if word.lower().startswith("0x") else 10)


def data_of(words):
    if words[0] == "fill":
        return bytes([int(words[1], 16)]) * int(words[2])
    if words[0] == "file":
        return (ROOT / words[1]).read_bytes()
    return bytes.fromhex(words[0])


def planned(step, upload):
    """The request of an upload's or a reset-running's next frame: code, two arguments, data; or a general call."""
    plan = step["plan"]
    image, piece = upload
    if plan["kind"] == "reset-running":
        return "general" if plan["phase"] == "reset" else (0x00, 0, 0, b"")
    place = plan["place"]
    return {
        "info": lambda: (0x03, 0, 0, b""), "finalize": lambda: (0x07, 0, 0, b""),
        "write": lambda: (0x06, place, 0, image[place:place + piece]),
        "read": lambda: (0x08, place, min(step["readPiece"], len(image) - place), b""),
    }[plan["phase"]]()


def asked(step, upload):
    """The request that a step's line asks for; None for raw frames, and where no request is made."""
    words = step["line"].split()
    if step["kind"] not in ("call", "unmade") or words[0] == "send":
        return None
    if words[0] == "next":
        return planned(step, upload)
    if words[0] in ("reset", "reset-address"):
        return "general"
    if words[0] == "write":
        return 0x06, number_of(words[1]), 0, data_of(words[2:])
    if words[0] == "read":
        return 0x08, number_of(words[1]), number_of(words[2]), b""
    if words[0] == "set-address":
        return 0x01, number_of(words[1]), number_of(words[3]), b""
    return CODES[words[0]], 0, 0, b""


def request_call(step, upload):
    """The call of the encoder for a step, and its answer."""
    request = asked(step, upload)
    if request is None:
        return
    answer = f"{step['number']} -" if step["kind"] == "unmade" else f"0 {step['sent']}"
    if request == "general":
        reset = step["line"] != "reset-address"
        yield f"G {int(reset)}", answer
    else:
        code, a, b, data = request
        yield f"E {code} {step['before']['to']} {a} {b} {data.hex() or '-'}", answer


def board_of(step):
    return f"{step['state']} {step['tally']} {step['flash']}"


def board_call(step):
    """The call of a board for a frame that reached it, and the read of its reply."""
    if step["kind"] != "call" or step["frameLost"]:
        return
    application = step["by"] == "application"
    reply = step["reply"] if step["number"] == 0 else None
    answer = f"{step['number']} {reply or '-'} {board_of(step)} {step['silence']} {step['lost']} {int(step['unworn'])}"
    pages = "".join(f" p{page}" for page in step["pages"])
    made = f" {step['reply']}" if application else ""
    yield f"{'A' if application else 'C'} {step['to']} {step['arrivedFrame'] or '-'}", answer + pages + made
    if step["readAt"] is not None:
        yield f"{'Q' if application else 'R'} {step['readAt']}", f"{step['readNumber']} {step['reply'] or '-'}"


def setting_call(step):
    words = step["line"].split()
    kind, board = step["kind"], board_of(step)
    if kind == "board":
        yield f"P {step['profile']}", f"{step['lost']} {board}"
    elif kind == "power":
        yield "W", f"{step['lost']} {board}"
    elif kind == "tally":
        yield "T", board
    elif kind == "flash" and words[1] == "fill":
        yield f"F {int(words[2], 16)}", board
    elif kind == "flash":
        yield f"B {data_of(words[1:]).hex()}", board
    elif kind == "read":
        yield f"{'Q' if step['by'] == 'application' else 'R'} {step['readAt']}", f"{step['readNumber']} {step['reply'] or '-'}"


def calls_of(steps):
    """Every call of the steps, with the answer that it must have and the step that it is of."""
    upload = (b"", 1)
    for step in steps:
        words = step["line"].split()
        if words[0] == "upload" and step["kind"] == "plan":
            upload = data_of(words[1:]), int(words[-1])
        for call, answer in (*request_call(step, upload), *board_call(step), *setting_call(step)):
            yield call, answer, step


def arrived(step):
    """A frame with every bit of its damaged bytes turned over."""
    frame = bytearray.fromhex(step["sent"])
    for hit in step["hits"]:
        if hit <= len(frame):
            frame[hit - 1] ^= 0xFF
    return frame.hex()


def sent_by_hand(step):
    raw = "".join(step["line"].split()[1:])
    return raw[2:] if step["before"]["bus"] == 0 else raw


def consistent(steps):
    """What needs no library: damage, raw frames, and steps that reach no board."""
    state = None
    for step in steps:
        if step["kind"] == "call":
            same(f"{step['line']}: the frame as it arrived", step["arrivedFrame"], arrived(step))
        if step["raw"] and step["kind"] == "call":
            same(f"{step['line']}: the frame", step["sent"], sent_by_hand(step))
        kept = (step["state"], step["tally"], step["flash"])
        if state and (step["kind"] not in ("call", "board", "power", "flash", "tally") or step["frameLost"]):
            same(f"{step['line']}: the board", kept, state)
        state = kept


def reached(steps):
    """The numbers and statuses of the board's own calls."""
    calls = [step for step in steps if step["kind"] == "call" and not step["frameLost"]]
    numbers = {step["number"] for step in calls}
    places = [(step, 2 if step["before"]["bus"] else 0) for step in calls if step["number"] == 0 and step["reply"]]
    return numbers, {int(step["reply"][at:at + 2], 16) for step, at in places}


def missing(steps):
    """The numbers and statuses that are not reached, in words."""
    numbers, statuses = reached(steps)
    return ", ".join([*(f"number {n}" for n in sorted(NUMBERS - numbers)), *(f"status {n}" for n in sorted(STATUSES - statuses))])


def through_library(program, steps):
    """The same calls through the x86-64 library: how many they were."""
    calls = list(calls_of(steps))
    done = subprocess.run([program], input="".join(f"{call}\n" for call, _, _ in calls), capture_output=True, text=True, check=True)
    answers = [line.strip() for line in done.stdout.splitlines()]
    same("answers", len(answers), len(calls))
    for (call, want, step), got in zip(calls, answers):
        if got != want:
            raise Wrong(f"{step['line'][:60]}: {call[:80]}: the page has {difference(want, got)}")
    return len(calls)


def difference(want, got):
    """The first word that differs, of both."""
    pairs = list(zip(want.split(), got.split()))
    for place, (a, b) in enumerate(pairs):
        if a != b:
            return f"{a[:120]}, the library {b[:120]} (word {place + 1})"
    return f"{want.split()[len(pairs):]}, the library {got.split()[len(pairs):]} at the end"


def compare(page, program, seed, count):
    page.open()
    first = page.js("childbus.run('board i2c'); return probe.dump(childbus.session.last)")
    steps = [{**first, "before": page.js("return probe.now()")}, *play(page, seed, count)]
    reopened(page)
    consistent(steps)
    calls = through_library(program, steps)
    holds(f"not reached: {missing(steps)}", count < ALL or missing(steps) == "")
    numbers, statuses = (", ".join(map(str, sorted(found))) for found in reached(steps))
    return f"{len(steps) - 1} steps, {calls} calls; numbers {numbers}, statuses {statuses}"


def part(page, program, seed, count=ALL):
    """Random steps in the page and the same calls through the x86-64 library."""
    try:
        return f"seed {seed}: {compare(page, program, seed, count)}"
    except Wrong as wrong:
        raise Wrong(f"seed {seed}: {wrong}") from wrong
