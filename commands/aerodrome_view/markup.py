"""Names in a page: escaped, each by itself so that none turns round what stands beside it, and cut where they are long."""
from __future__ import annotations

from html import escape

from .names import cut, readable, shown

MOST_NAME = 40  # columns of a name in a sentence
MOST_TEXT = 700  # columns of a line, or of a name in a table


def bare(text: bytes, most: int = MOST_NAME) -> str:
    """A name as the trace has it. Where its middle is left out, whoever points at it sees the whole."""
    whole = shown(text)
    short = cut(whole, most)
    return f"<bdi>{escape(whole)}</bdi>" if short == whole else f'<bdi title="{escape(whole)}">{escape(short)}</bdi>'


def code(text: bytes, most: int = MOST_NAME) -> str:
    """A name of the program, readable where it is mangled."""
    return f"<code>{bare(readable(text), most)}</code>"

