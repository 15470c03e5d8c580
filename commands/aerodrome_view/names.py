"""Names as a reader may see them: none can end a line, turn a text round, or leave the quotes of a shell."""
from __future__ import annotations

import functools
import re
import select
import subprocess
import unicodedata
from typing import Optional

MANGLED = re.compile(rb"_[ZR][\w.$]+(?:\+[0-9]+)?")
SECONDS = 2  # for an answer of c++filt
MOST_MARKS = 2  # marks that may be piled on one character


def shown(name: bytes) -> str:
    """A name as text. Bytes that aren't UTF-8 and control characters stand as \\xNN, other characters that can't be seen, and
    marks piled on one another, as \\u{N}."""
    text = name.decode("utf-8", "surrogateescape")
    if text.isascii() and text.isprintable():
        return text
    out, marks = [], MOST_MARKS  # a mark wants a character before it
    for char in text:
        marks = marks + 1 if unicodedata.category(char) in ("Mn", "Me") else 0
        if "\udc80" <= char <= "\udcff":
            out.append(f"\\x{ord(char) - 0xdc00:02x}")
        elif char < "\x80" and not char.isprintable():
            out.append(f"\\x{ord(char):02x}")
        elif not char.isprintable() or marks > MOST_MARKS:
            out.append(f"\\u{{{ord(char):x}}}")
        else:
            out.append(char)
    return "".join(out)


def is_text(name: bytes) -> bool:
    """Whether a name is UTF-8, and so can be a word of a command line."""
    return name.decode("utf-8", "ignore").encode() == name


def word_of_shell(name: bytes) -> str:
    """A name as a word for bash, ksh and zsh: in quotes if it needs them, and without invisible characters."""
    text = shown(name)
    if not is_text(name) or text != name.decode():
        quoted = name.replace(b"\\", b"\\\\").replace(b"'", b"\\'")
        return "$'" + "".join(chr(byte) if 31 < byte < 127 else f"\\{byte:03o}" for byte in quoted) + "'"
    if text and text[0] != "=" and all(char.isalnum() or char in "_.,:+@%/=-" for char in text):
        return text
    return "'" + text.replace("'", "'\\''") + "'"


def columns_of(text: str) -> int:
    """How many columns a text takes: two for a wide character, none for a mark."""
    wide = sum(unicodedata.east_asian_width(char) in "WF" for char in text)
    return len(text) + wide - sum(unicodedata.category(char) in ("Mn", "Me") for char in text)


def cut(text: str, most: int) -> str:
    """A text of at most so many columns: where it has more, its middle is left out."""
    if columns_of(text) <= most:
        return text
    front, back, room = "", "", most - 1
    for near, far in zip(text, reversed(text)):
        room -= columns_of(near) + columns_of(far)
        if room < 0:
            break
        front, back = front + near, far + back
    return f"{front}\u2026{back}"


class Filter:
    """c++filt, which answers a line for each line, as long as this process lasts: given up where it doesn't answer."""

    def __init__(self) -> None:
        self.process: Optional[subprocess.Popen[bytes]] = None
        try:
            self.process = subprocess.Popen(["c++filt"], stdin=subprocess.PIPE, stdout=subprocess.PIPE, stderr=subprocess.DEVNULL)
        except OSError:
            pass

    def answer(self, name: bytes) -> bytes:
        """What it answers, or the name itself."""
        if not self.process or not self.process.stdin or not self.process.stdout:
            return name
        try:
            self.process.stdin.write(name + b"\n")
            self.process.stdin.flush()
            if select.select([self.process.stdout], [], [], SECONDS)[0]:
                line = self.process.stdout.readline()
                if line.endswith(b"\n"):
                    return line[:-1]
        except OSError:
            pass
        self.process.kill()
        self.process = None
        return name


the_filter = functools.lru_cache(maxsize=None)(Filter)


@functools.lru_cache(maxsize=4096)
def readable(name: bytes) -> bytes:
    """A name of C++ or Rust as its program has it, where c++filt is there; any other as it is."""
    return the_filter().answer(name) if MANGLED.fullmatch(name) else name


def plain(name: bytes) -> str:
    """A name as text, readable where it is mangled."""
    return shown(readable(name))
