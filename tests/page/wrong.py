"""Wrong pages, each made by one replacement in the page's file or in its table of words, are noticed by the tests that should."""

import json
import pathlib
import subprocess
import sys
from urllib.parse import unquote, urlparse

import bus
import calls
import cases
import keys
import lessons
import steps
import uploads
import window
from browser import HERE, ROOT, Page, Wrong, holds


def lesson(name, picture=False):
    return lambda page: lessons.part(page, only=[name], passes=(lessons.all_right,), picture=picture)


def on_bus(test, name):
    return lambda page: bus.part(page, only=(test,), buses=(name,))


def only(module, test):
    return lambda page: module.part(page, only=(test,))


# Each wrong page: what is wrong, the text that is replaced, its replacement, and the tests that notice it.

def in_lessons():
    return [
        ("a reply's byte is another one in the bus's picture", "drawFrame(reply, replyParts(after.board.bus, reply)",
         "drawFrame(reply.map((byte, i) => i === 1 ? byte ^ 1 : byte), replyParts(after.board.bus, reply)", lesson("damaged-frame")),
        ("a reply's byte is another one in words", "${where}${bytesText(reply)}", "${where}${bytesText(reply.map(byte => byte & 0x7f))}",
         lesson("damaged-frame")),
        ("an alarm is not told", "said('alarm', alarm),", "", lesson("first-upload")),
        ("an alarm is told and not shown", "el('strong', {}, text), lines", "el('strong', {}, ''), lines", lesson("first-upload")),
        ("the answer can be had before a choice", "disabled: !ready", "disabled: false", lesson("first-upload")),
        ("a lesson goes on from other steps than its own", "session.follow(this.path);", "session.go(this.path.length);",
         lambda page: (page.open(), lessons.off_path(page))),
        ("rewritten pages count twice", "counts[page] += 1;", "counts[page] += 2;", lesson("first-upload")),
        ("a finalize that erased nothing is not told", "unworn: this.library", "unworn: false && this.library", lesson("re-upload")),
        ("an error in the console", "byId('wire').replaceChildren(",
         "setTimeout(() => { throw new Error('wrong'); }); byId('wire').replaceChildren(", lesson("first-upload")),
        ("nothing is seen", "body { margin", "body { opacity: 0; margin", lesson("first-upload", picture=True)),
    ]


def on_buses():
    return [
        ("a damaged byte is not damaged", "arrived[byte - 1] ^= 0xff;", "arrived[byte - 1] ^= 0;", on_bus(bus.damaged_frames, bus.RS485)),
        ("lost bytes are not told", "lost: this.library.lost(", "lost: 0 && this.library.lost(", on_bus(bus.lost_bytes, bus.I2C)),
        ("a frame that is lost arrives", "if (frameLost) return this", "if (false) return this", on_bus(bus.lost_frames, bus.RS485)),
        ("a read is at another address", "state, flash }, at)", "state, flash }, at === 20 ? 8 : at)", on_bus(bus.reads, bus.I2C)),
        ("a page's bytes are those of another place", "const at = board.offset + this.page * board.page;",
         "const at = this.page * board.page;", on_bus(bus.page_bytes, bus.I2C)),
    ]


def in_steps_and_cases():
    walk = lambda page: steps.part(page, steps.LINES[:14], 5)
    return [
        ("back does not restore the flash", "flash.set(patch.old, patch.at)", "void patch.old", walk),
        ("steps that are brought back are others", "slice(0, from), ...lines]", "slice(0, from), ...lines.slice(1)]", walk),
        ("the progress stands", "byId('progress').value =", "byId('progress').title =", only(uploads, uploads.dropped)),
        ("a case is opened half", "of caseLines(text))", "of caseLines(text).slice(0, 20))", only(cases, cases.good)),
        ("a link is opened half", "this.openCase(lines);", "this.openCase(lines.split('\\n').slice(0, 40).join('\\n'));",
         only(cases, cases.good)),
        ("a broken case loses what was there", "throw new LineError(`line ${place},",
         "this.session = session; throw new LineError(`line ${place},", only(cases, cases.broken)),
    ]


def in_calls(program):
    some = lambda page: calls.part(page, program, 4, 150)
    return [
        ("the tally is not handed on", "tally: answer.tally,", "tally: now.tally,", some),
        ("the master sends to 8 alone", "board.longest, code, to, a, b, data)", "board.longest, code, 8, a, b, data)", some),
    ]


def in_keys_and_windows():
    return [
        ("a key is dead", "event.key === '['", "event.key === '{'", only(keys, keys.back_and_forward)),
        ("arrows do not move", "to.focus();", "", only(keys, keys.pages)),
        ("the page is wider than a tablet", "#history { ", "#history { width: 1100px; ", only(window, window.tablets)),
        ("nothing is printed", "@media print {", "@media print { body { display: none; }", only(window, window.printed)),
        ("an address of another machine", 'href="data:,"', 'href="https://example.org/icon.png"', only(window, window.alone)),
    ]


def wrong_pages(program):
    return [*in_lessons(), *on_buses(), *in_steps_and_cases(), *in_calls(program), *in_keys_and_windows()]


def notices(page, test):
    """Why a wrong page is noticed; None if it is not."""
    try:
        test(page)
        errors = page.errors()
        return f"console: {errors[0]}" if errors else None
    except Wrong as problem:
        return str(problem)
    finally:
        page.errors()


def try_page(page, html, name, old, new, test):
    holds(f"wrong page '{name}': its text stands {html.count(old)} times in the file: {old}", html.count(old) == 1)
    path = page.folder / "wrong.html"
    path.write_text(html.replace(old, new), encoding="utf-8")
    reason = notices(Page(page.driver, path, page.folder), test)
    holds(f"wrong page '{name}' is not noticed", reason is not None)


# ---- wrong tables of words

def changed(table, path, value):
    """The table with another value at a place; None takes it out."""
    copy = json.loads(json.dumps(table))
    *names, last = path
    entry = copy
    for name in names:
        entry = entry[name]
    if value is None:
        del entry[last]
    else:
        entry[last] = value
    return copy


WRONG_TABLES = [
    ("a word of a number", ("numbers", "17", "words"), "wrong check sum in the frame, nothing sent"),
    ("a word of a status", ("statuses", "4", "words"), "the check sum is wrong, the board is dead"),
    ("advice", ("silences", "4", "do"), "send the frame again; on RS485 a damaged frame is answered"),
    ("an alarm", ("alarms", "lost", "more"), "% accepted bytes are lost"),
    ("a number is missing", ("numbers", "18"), None),
    ("a status is missing", ("statuses", "3"), None),
    ("an alarm is missing", ("ends", "1"), None),
    ("a meaning", ("numbers", "9", "means"), "The check sum is wrong"),
    ("what to do next", ("statuses", "5", "next"), "Begin again"),
]


def try_tables(folder):
    table = json.loads((ROOT / "page/words.json").read_text(encoding="utf-8"))
    path = folder / "wrong.json"
    for name, place, value in WRONG_TABLES:
        path.write_text(json.dumps(changed(table, place, value), ensure_ascii=False), encoding="utf-8")
        done = subprocess.run([sys.executable, "-B", HERE / "words.py", "--table", path], capture_output=True, check=False)
        holds(f"wrong table '{name}' is not noticed", done.returncode == 1)
    return len(WRONG_TABLES)


def part(page, program):
    """Wrong pages and tables are noticed."""
    html = pathlib.Path(unquote(urlparse(page.url).path)).read_text(encoding="utf-8")
    pages = wrong_pages(program)
    for wrong_page in pages:
        try_page(page, html, *wrong_page)
    return f"{len(pages)} wrong pages and {try_tables(page.folder)} wrong tables, all noticed"
