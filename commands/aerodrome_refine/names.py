"""Names of labels, threads and files, as bytes, and how they are shown."""
from __future__ import annotations

import base64
import re
from typing import Any

Json = dict[str, Any]


def needs_a_word(label: bytes) -> bool:
    """Whether a file can't hold a label, since a line of it is read without blanks at its ends, and # begins a comment."""
    return label != label.strip(b" \t") or label.startswith(b"#")


def shown(name: bytes) -> bytes:
    """A name, with \\xNN for each byte that isn't UTF-8."""
    return name.decode(errors="backslashreplace").encode()


def printable(name: bytes) -> bytes:
    return re.sub(rb"[\0-\x1f\x7f]", lambda it: b"\\x%02x" % it[0][0], shown(name))


def counted(number: int, one: str) -> str:
    return f"{number} {one}{'' if number == 1 else 's'}"


def quoted(word: bytes) -> bytes:
    """The word for sh, in quotes if it needs them."""
    if re.fullmatch(rb"[A-Za-z0-9_.,:+@%/=-]+", word):
        return word
    return b"'" + word.replace(b"'", rb"'\''") + b"'"


def bytes_of(name: Any) -> bytes:
    """A name of JSON: a string, or an object if it isn't UTF-8."""
    return base64.b64decode(name["bytes"]) if isinstance(name, dict) else name.encode()


def json_of(name: bytes) -> Any:
    return name.decode() if shown(name) == name else {"bytes": base64.b64encode(name).decode()}
