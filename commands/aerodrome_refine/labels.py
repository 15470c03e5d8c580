"""The labels of the blocks that a pass leaves out."""
from __future__ import annotations

from dataclasses import dataclass, replace
from typing import Iterator, Optional

from .names import needs_a_word, shown

MOST_WORDS = 64  # labels of --except
MOST_LABELS = 65_536


@dataclass(frozen=True)
class Labels:
    """Which blocks a pass leaves out: those with these labels, or all except those with these labels. The program is given some of
    the labels as words, and the others in a file."""

    option: bytes
    words: tuple[bytes, ...] = ()
    listed: tuple[bytes, ...] = ()

    def __iter__(self) -> Iterator[bytes]:
        return iter(self.words + self.listed)

    @property
    def is_only(self) -> bool:
        return self.option == b"--only"

    def without(self, label: bytes) -> Labels:
        """The labels such that blocks with this one are left out too."""
        if self.is_only:
            return self.lacking(label)
        if needs_a_word(label):
            return replace(self, words=(*self.words, label))
        return replace(self, listed=(*self.listed, label))

    def lacking(self, label: bytes) -> Labels:
        words, listed = (tuple(it for it in them if it != label) for them in (self.words, self.listed))
        return replace(self, words=words, listed=listed)

    def refusal(self, label: Optional[bytes]) -> str:
        """Why blocks with this label can't be left out too; empty if they can."""
        if label is None:
            return "that block has no label, so it can't be left out"
        if self.is_only:
            return "that block has the last label of --only, so it can't be left out" if set(self) == {label} else ""
        if needs_a_word(label) and shown(label) != label:
            return "that block's label isn't UTF-8, and a file can't hold it, so it can't be left out"
        if needs_a_word(label) and len(self.words) >= MOST_WORDS:
            return f"that block's label needs --except, as {MOST_WORDS} others do, so it can't be left out"
        if len(self.words) + len(self.listed) >= MOST_LABELS:
            return f"{MOST_LABELS} labels are left out, and there is still a violation"
        return ""
