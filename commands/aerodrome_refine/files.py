"""Files of labels, temporary files and pipes."""
from __future__ import annotations

import errno
import os
import re
import sys
import tempfile
from typing import Any

from .messages import Ended
from .names import shown


def is_read_by_name(word: bytes) -> bool:
    """Whether the program can read the same bytes again by this name, or reports why it can't."""
    # (such a name stands for another file in another process)
    if os.path.abspath(word).startswith((b"/dev/stdin", b"/dev/fd/", b"/proc/")):
        return False
    return os.path.isfile(word) or os.path.isdir(word) or not os.path.exists(word)


def is_same(path: bytes, other: bytes) -> bool:
    return os.path.exists(path) and os.path.exists(other) and os.path.samefile(path, other)


def ends_within_a_line(path: bytes) -> bool:
    """Whether a plain file has a last line without its end."""
    if not os.path.isfile(path) or not os.path.getsize(path):
        return False
    with open(path, "rb") as file:
        file.seek(-1, os.SEEK_END)
        return file.read(1) != b"\n"


def kept(path: Any) -> Any:
    """The data of a pipe, in a file without a name, which ends with this process."""
    # (if standard input was closed, its number may be that of another file)
    if path == 0 and sys.stdin is None:
        raise OSError(errno.EBADF, os.strerror(errno.EBADF))
    file = unnamed()
    with open(path, "rb", closefd=path != 0) as pipe:
        for piece in iter(lambda: pipe.read(1 << 16), b""):
            try:
                file.write(piece)
                file.flush()
            except OSError as why:
                raise Ended(4, f"a temporary file can't be written: {why.strerror}") from why
    return file


def piped() -> tuple[int, int]:
    try:
        return os.pipe()
    except OSError as why:
        raise Ended(4, f"no pipe: {why.strerror}") from why


def unnamed() -> Any:
    try:
        return tempfile.TemporaryFile()
    except OSError as why:
        raise Ended(4, f"no temporary file: {why.strerror}") from why


def labels_in(path: bytes) -> list[tuple[int, bytes]]:
    """The labels of a file with their lines. Comments, empty lines and blanks around a label are passed over."""
    name, found = shown(path).decode(), []
    try:
        with open(path, "rb") as file:
            lines = file.read().split(b"\n")
    except OSError as why:
        raise Ended(3, f"{name}: {why.strerror}") from why
    for number, line in enumerate(lines, 1):
        label = line.removesuffix(b"\r").strip(b" \t")
        if not label or label.startswith(b"#"):
            continue
        if len(label) > 255:
            raise Ended(3, f"{name}:{number}: a label has at most 255 bytes")
        if re.search(rb"[\0-\x08\x0a-\x1f\x7f|]", label):
            raise Ended(3, f"{name}:{number}: a label has no | and no control characters")
        found.append((number, label))
    return found
