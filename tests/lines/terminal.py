#!/usr/bin/env python3
"""The bench at a pseudo-terminal: prompts, and each typed line stands there once.

    tests/lines/terminal.py BENCH
"""
import os
import pty
import select
import subprocess
import sys


def typed(bench, lines):
    """What stands on the terminal after the lines were typed, each after its prompt, and the bench's exit status.

    This side keeps the terminal open, so that what was written last is not lost when the bench ends.
    """
    here, there = pty.openpty()
    child = subprocess.Popen([bench], stdin=there, stdout=there, stderr=there, start_new_session=True)
    out = b""
    lines = list(lines)
    while True:
        ended = child.poll() is not None
        if select.select([here], [], [], 0.2)[0]:
            out += os.read(here, 4096)
            if lines and out.endswith(b"> "):
                os.write(here, lines.pop(0))
        elif ended:
            break
    os.close(here)
    os.close(there)
    return out.replace(b"\r\n", b"\n").decode(), child.returncode


def main():
    bench = sys.argv[1]
    wrong = []
    answer = """  request to 8: 00 f3
  number 0, reply made; the master reads it at 8: 00 02 02 02 23
  status 0, OK: version 2.2, which counts as 2.2
  changed: nothing
"""
    for ending, shown in ((b"quit\n", "quit\n"), (b"\x04", "\n")):
        out, status = typed(bench, [b"version\n", b"# a comment\n", b"say hello\n", ending])
        if status != 0:
            wrong.append(f"status {status}")
        if out != f"  help lists the lines, quit ends\n> version\n{answer}> # a comment\n> say hello\nhello\n> {shown}":
            wrong.append(f"on the terminal stands {out!r}")
    for w in wrong:
        print(w)
    sys.exit(bool(wrong))


if __name__ == "__main__":
    main()
