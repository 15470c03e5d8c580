"""A trace that is judged again and again, and read for its blocks."""
from __future__ import annotations

import contextlib
import itertools
import os
import re
from collections import Counter
from typing import Any, Iterator, Optional

from .files import is_read_by_name, kept
from .messages import Ended
from .names import shown

PIECE = 1 << 20  # bytes of a read
BEGIN = re.compile(rb"\n[^|\n]*\|[ \t]*begin\(([^|\n]*)\)[ \t]*\r?(?=[|\n])")


class Trace:
    """A trace that can be judged again and again."""

    def __init__(self, word: bytes) -> None:
        # The program refuses a word that isn't UTF-8.
        self.word, self.name, self.file = word, shown(word), None
        self.counts: Optional[Counter[bytes]] = None
        try:
            if word == b"-":
                self.file = kept(0)
            elif not is_read_by_name(word):
                self.file = kept(word)
            elif self.name != word:
                open(word, "rb").close()
        except OSError as why:
            raise Ended(2, f"{self.name.decode()}: {why.strerror}") from why
        self.is_input = self.file is not None or self.name != word
        self.words = [b"--label=" + self.name] if self.is_input else [b"--", self.name]

    def opened(self) -> Any:
        """The trace from its beginning, as a file of its own."""
        return open(f"/dev/fd/{self.file.fileno()}" if self.file else self.word, "rb", buffering=0)

    def given(self) -> Any:
        """What the program has as standard input."""
        try:
            return self.opened() if self.is_input else open(os.devnull, "rb")
        except OSError as why:
            raise Ended(2, f"{self.name.decode()}: {why.strerror}") from why

    def pieces(self) -> Iterator[tuple[int, bytes]]:
        """Whole lines, each with the line end before it, and the number of the first one."""
        line, left = 1, b""
        with contextlib.suppress(OSError), self.opened() as file:
            while piece := file.read(PIECE):
                whole, ending, rest = (left + piece).rpartition(b"\n")
                left = rest
                if ending:
                    yield line, b"\n" + whole + ending
                    line += whole.count(b"\n") + 1
        if left:
            yield line, b"\n" + left + b"\n"

    def bounds(self, thread: bytes, first: int, last: int) -> Iterator[tuple[int, bytes, Optional[bytes]]]:
        """The begins and ends of a thread on the lines from `first` to `last`: each line, operation and label."""
        bound = rb"\n[ \t]*%s[ \t]*\|[ \t]*(begin|end)(?:\(([^|\n]*)\))?[ \t]*\r?(?=[|\n])" % re.escape(thread)
        for line, found in itertools.takewhile(lambda it: it[0] <= last, self.lines_with(re.compile(bound), first, last)):
            if line >= first:
                yield line, found[1], found[2] or None

    def lines_with(self, pattern: re.Pattern[bytes], first: int, last: int) -> Iterator[tuple[int, re.Match[bytes]]]:
        """The matches in the pieces that have some of these lines, each with its line."""
        near = itertools.takewhile(lambda it: it[0] <= last, self.pieces())
        wanted = (it for it in near if it[0] + it[1].count(b"\n") > first)
        return itertools.chain.from_iterable(numbered(pattern, *piece) for piece in wanted)

    def blocks_with(self, label: bytes) -> int:
        """How many blocks of the trace begin with this label."""
        if self.counts is None:
            self.counts = Counter()
            for _, piece in self.pieces():
                self.counts.update(BEGIN.findall(piece))
        return self.counts[label]


def numbered(pattern: re.Pattern[bytes], line: int, piece: bytes) -> Iterator[tuple[int, re.Match[bytes]]]:
    """The matches in a piece whose first line this is, each with its line."""
    at = 1
    for found in pattern.finditer(piece):
        line += piece.count(b"\n", at, found.start() + 1)
        at = found.start() + 1
        yield line, found
