"""The line about progress."""
from __future__ import annotations

import itertools
import os
import sys
import time
from typing import Iterator, Optional

from .answer import Answer
from .asked import Asked
from .messages import tell
from .names import counted, printable
from .trace import Trace

TICK, PATIENCE = 0.2, 2  # seconds between two lines of progress, and before the first


class Progress:
    """A line on standard error: how many findings there are, and the line of the last one, of those that the trace has."""

    def __init__(self, asked: Asked) -> None:
        is_wanted = asked.progress or sys.stderr is not None and os.isatty(2)
        self.next = float("inf")
        if is_wanted and not asked.quiet:
            self.next = time.monotonic() + (TICK if asked.progress else PATIENCE)
        self.told, self.began, self.is_shown = b"", time.monotonic(), False
        self.trace: Optional[Trace] = None
        self.lines: Iterator[int] = iter(())
        self.count = 0

    def reached(self, answer: Answer, findings: int) -> None:
        if self.trace is not answer.trace:
            self.trace, self.count = answer.trace, 0
            self.lines = (line + piece.count(b"\n") - 2 for line, piece in answer.trace.pieces())
        self.told = f"{counted(findings, 'finding')}, ".encode() + b"%s: line %d" % (self.trace.name, answer.line)

    def show(self) -> None:
        now = time.monotonic()
        if now < self.next:
            return
        # (a large trace is counted a part at a time)
        counts = list(itertools.islice(self.lines, 64))
        self.count = counts[-1] if counts else self.count
        of = b" of %d" % self.count if len(counts) < 64 else b""
        told = self.told + of if self.told else b"no finding yet"
        tell(b"\r\033[?7laerodrome-refine: %s, %d s\033[K\033[?7h" % (printable(told), now - self.began))
        self.next, self.is_shown = now + TICK, True

    def clear(self) -> None:
        if self.is_shown:
            tell(b"\r\033[K")
            self.is_shown = False
