"""What is written to standard output and standard error, and how the command ends."""
from __future__ import annotations

import contextlib
import json
import sys

from .names import Json


class Ended(Exception):
    """Raised to end at once: the exit status, and a line with the reason, if there is one."""


def write(line: bytes) -> None:
    """Writes a line to standard output. If the reader of a pipe has ended, there is no message."""
    try:
        with open(1, "wb", closefd=False) as out:
            out.write(line + b"\n")
    except BrokenPipeError:
        raise Ended(4, "") from None
    except OSError as why:
        raise Ended(4, "write failed") from why


def write_json(of: Json) -> None:
    write(json.dumps(of, ensure_ascii=False, separators=(",", ":")).encode())


def say(text: str) -> None:
    tell(f"aerodrome-refine: {text}\n".encode(errors="surrogateescape"))


def tell(notes: bytes) -> None:
    """Writes to standard error."""
    if sys.stderr is not None:
        with contextlib.suppress(OSError), open(2, "wb", closefd=False) as out:
            out.write(notes)
