#!/usr/bin/env python3
"""Types lines into a shell on a terminal, and prints the words that each line becomes.

  typed.py SHELL [WORD..] < LINES

Each of LINES is typed as it is, with a tab for each <TAB>, and then Enter. The shell has to make ready> its prompt, and the commands that
are called have to print their words as <WORD><WORD>. A line that isn't answered within 30 seconds ends this with status 1.
"""
import os
import pty
import re
import select
import sys
import time

PROMPT = b"ready> "
ANSWER = re.compile(rb"(?ms)^(<[^\r\n]*>)\r*\n.*ready> ")


def read_until(terminal, is_done, told):
    """What the shell writes until `is_done` holds for it."""
    wrote, last = b"", time.monotonic() + 30
    while not is_done(wrote):
        ready, _, _ = select.select([terminal], [], [], max(0, last - time.monotonic()))
        if not ready:
            sys.exit(f"{told}: no answer but {wrote!r}")
        try:
            wrote += os.read(terminal, 65536)
        except OSError:
            sys.exit(f"{told}: the shell ended after {wrote!r}")
    return wrote


def main(words):
    process, terminal = pty.fork()
    if not process:
        os.environ.update(TERM="dumb", PS1=PROMPT.decode(), COLUMNS="200")
        os.execvp(words[0], words)
    read_until(terminal, lambda wrote: PROMPT in wrote, "the prompt")
    for line in sys.stdin.read().splitlines():
        os.write(terminal, line.replace("<TAB>", "\t").encode() + b"\r")
        wrote = read_until(terminal, ANSWER.search, line)
        print(f"{line}: {ANSWER.search(wrote)[1].decode()}")
    os.close(terminal)
    os.waitpid(process, 0)


main(sys.argv[1:])
