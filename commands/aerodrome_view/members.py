"""Members of the objects of a report. What stands there may come from anybody: each is looked at before it is used."""
from __future__ import annotations

import base64
from typing import Any

Json = dict[str, Any]

GREATEST = 2**63 - 1


def number(of: Json, key: str, least: int = 0) -> int:
    value = of.get(key)
    if not isinstance(value, int) or isinstance(value, bool) or not least <= value <= GREATEST:
        raise ValueError(f"no number {key}")
    return value


def line(of: Json, key: str) -> int:
    """The number of a line: they are counted from 1."""
    return number(of, key, 1)


def word(of: Json, key: str) -> str:
    value = of.get(key)
    if not isinstance(value, str):
        raise ValueError(f"no text {key}")
    # (half of a surrogate pair is no text)
    value.encode()
    return value


def name(of: Json, key: str) -> bytes:
    """A name: its text, or {"bytes":BASE64} where that isn't UTF-8."""
    value = of.get(key)
    if isinstance(value, dict):
        try:
            return base64.b64decode(word(value, "bytes"), validate=True)
        except ValueError:
            raise ValueError(f"no BASE64 {key}") from None
    return word(of, key).encode()


def names(of: Json, key: str) -> tuple[bytes, ...]:
    """An array of names; none where there is no such member."""
    return tuple(name({key: value}, key) for value in items(of, key)) if key in of else ()


def items(of: Json, key: str) -> list[object]:
    value = of.get(key)
    if not isinstance(value, list):
        raise ValueError(f"no array {key}")
    return value


def parts(of: Json, key: str) -> list[Json]:
    """An array of objects."""
    value = items(of, key)
    if not all(isinstance(part, dict) for part in value):
        raise ValueError(f"no objects in {key}")
    return value  # type: ignore
