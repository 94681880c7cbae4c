"""Runs the parts of the page's tests in a browser, a line for each, and then sees that wrong pages are noticed.

    parts.py HTML CALLS FOLDER SEED [PART..]    HTML: the page; CALLS: the program of calls.c; FOLDER: for pictures and files
"""

import pathlib
import sys
import time

import browser
import bus
import calls
import cases
import keys
import lessons
import steps
import uploads
import window
import wrong
from browser import Wrong, holds, same


def parts(program, seed):
    """Each part by its name, in the order of the list in run."""
    return {
        "lessons": lessons.part,
        "uploads": uploads.part,
        "bus": bus.part,
        "steps": steps.part,
        "cases": cases.part,
        "calls": lambda page: calls.part(page, program, seed),
        "keys": keys.part,
        "window": window.part,
        "pictures": pictures,
        "wrong": lambda page: wrong.part(page, program),
    }


def pictures(page):
    """A picture of each lesson's end is there: each was looked at when it was made, and no part had an error in the console."""
    names = sorted(path.stem for path in page.folder.glob("lesson-*.png"))
    same("pictures", names, sorted(f"lesson-{name}" for name in lessons.names()))
    return f"{len(names)} pictures that show something; no error in the browser's console"


def run(page, name, part):
    """A part with its line; whether it went well."""
    begun = time.monotonic()
    try:
        done = part(page)
        errors = page.errors()
        holds(f"the browser's console: {errors[:3]}", not errors)
    except Wrong as problem:
        print(f"page: {name}: WRONG: {problem}", file=sys.stderr, flush=True)
        page.errors()
        page.picture(f"wrong-{name}", 1)
        return False
    print(f"page: {name}: {done} ({time.monotonic() - begun:.0f} s)", flush=True)
    return True


def main():
    html, program, folder, seed, *only = sys.argv[1:]
    driver = browser.start()
    try:
        page = browser.Page(driver, html, pathlib.Path(folder).resolve())
        chosen = {name: part for name, part in parts(program, int(seed)).items() if not only or name in only}
        went_well = [run(page, name, part) for name, part in chosen.items()]
    finally:
        driver.quit()
    sys.exit(0 if all(went_well) else 1)


main()
