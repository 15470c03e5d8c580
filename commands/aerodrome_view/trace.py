"""What is wanted of the trace behind a finding, which no report has: the lines round its events, and places in the code."""
from __future__ import annotations

import gzip
import io
import os
import stat
import zlib
from dataclasses import dataclass, field
from typing import Iterator, Optional

from .report import Finding

MOST_BYTES = 1 << 16  # of a line that are looked at
PIECE = 1 << 20  # bytes of a read
Parts = tuple[bytes, bytes, Optional[bytes]]  # of an event: its thread, its operation, and its target, of a begin its label


@dataclass
class Seen:
    """What was seen of a trace: lines by their numbers; or why nothing was."""

    lines: dict[int, bytes] = field(default_factory=dict)
    why_not: str = ""

    def location_of(self, line: int) -> bytes:
        return location_of(self.lines.get(line, b""))


def parts_of(line: bytes) -> Optional[Parts]:
    """The parts of a line that holds an event."""
    fields = line.split(b"|", 2)
    if len(fields) < 2:
        return None
    op, parenthesis, target = fields[1].strip(b" \t").partition(b"(")
    op, target = op.strip(b" \t"), target[:-1]
    has_target = parenthesis and op != b"end" and 1 <= len(target) <= 255
    return fields[0].strip(b" \t"), op, target if has_target else None


def location_of(line: bytes) -> bytes:
    """The place in the code that a line tells, empty where it tells none."""
    fields = line.split(b"|", 2)
    return fields[2].strip(b" \t") if len(fields) == 3 else b""


def look(finding: Finding, folder: str, context: int = 0) -> Seen:
    """The lines of the trace round the events of a finding, those where its blocks begin and end, or its faulty line.

    Where the file doesn't hold these on their lines it isn't the trace that was judged, and nothing of it is told.
    """
    if finding.source == b"-":
        return Seen(why_not="it came from standard input")
    told = _told(finding)
    at = [event.line for event in finding.cycle] + [finding.counts["line"]]
    wanted = {line for middle in at for line in range(max(1, middle - context), middle + context + 1)}
    try:
        with _opened(os.path.join(folder, os.fsdecode(finding.source))) as file:
            seen = Seen(dict(_read(file, wanted.union(told))))
    except (EOFError, zlib.error, gzip.BadGzipFile):
        return Seen(why_not="its compressed form is incomplete")
    except (OSError, ValueError) as why:
        return Seen(why_not=f"it couldn't be read: {getattr(why, 'strerror', None) or why}")
    for line, parts in sorted(told.items()):
        if finding.is_of_ended and parts[1] == b"end":
            # (it was judged as if it had this line)
            seen.lines.setdefault(line, parts[0] + b"|end")
            if _joins(seen.lines[line], parts[0]):
                continue
        if parts_of(seen.lines.get(line, b"")) != parts:
            return Seen(why_not=f"line {line} of the file isn't the event that was judged")
    return seen


def _joins(line: bytes, thread: bytes) -> bool:
    """Whether the line joins the thread, whose blocks ended before that."""
    parts = parts_of(line)
    return parts is not None and parts[1:] == (b"join", thread)


def _told(finding: Finding) -> dict[int, Parts]:
    """By line, what the report tells of the events there."""
    blocks = [one for one in finding.transactions.values() if one.is_block]
    begins = {one.first: (one.thread, b"begin", one.label) for one in blocks}
    ends = {one.end: (one.thread, b"end", None) for one in blocks if one.end is not None}
    events = {event.line: (event.thread, event.op.encode(), event.target) for event in finding.cycle}
    return {**begins, **ends, **events}


def _opened(path: str) -> io.BufferedReader:
    """The plain file at a path, or its zipped form beside it."""
    is_zipped = not os.path.exists(path) and os.path.exists(path + ".gz")
    place = path + ".gz" if is_zipped else path
    if not stat.S_ISREG(os.stat(place).st_mode):
        raise OSError("it isn't a plain file")
    return io.BufferedReader(gzip.open(place) if is_zipped else open(place, "rb", buffering=0), PIECE)  # type: ignore


def _read(file: io.BufferedReader, wanted: set[int]) -> Iterator[tuple[int, bytes]]:
    """The wanted lines with their numbers."""
    number, final = _pass_to(file, min(wanted)), max(wanted)
    while number < final and (line := file.readline(MOST_BYTES)):
        if not line.endswith(b"\n"):
            _pass_line(file)
        number += 1
        if number in wanted:
            yield number, line.removesuffix(b"\n").removesuffix(b"\r")


def _pass_to(file: io.BufferedReader, line: int) -> int:
    """Passes lines in big pieces, all of them before `line`; answers how many."""
    passed = 0
    while True:
        piece = file.peek()
        newlines = piece.count(b"\n")
        if not piece or passed + newlines + 1 >= line:
            return passed
        file.read(len(piece))
        passed += newlines
        if not piece.endswith(b"\n"):
            _pass_line(file)
            passed += 1


def _pass_line(file: io.BufferedReader) -> None:
    while (piece := file.readline(MOST_BYTES)) and not piece.endswith(b"\n"):
        pass
