"""The file of labels that are found."""
from __future__ import annotations

import contextlib
import os
import re
from typing import TYPE_CHECKING, Iterator, Optional

from .answer import Finding, why_of
from .asked import Asked
from .files import ends_within_a_line
from .labels import MOST_WORDS
from .messages import Ended
from .names import counted, needs_a_word, quoted, shown

if TYPE_CHECKING:
    from .refinement import Refinement

HEAD = b"# Labels of blocks that aren't atomic, for aerodrome --except-from. By aerodrome-refine.\n"


class LabelFile:
    """The file of -o or --continue, to which labels are written as they are found; or of --check, which stays as it is."""

    def __init__(self, asked: Asked) -> None:
        self.path = asked.output or asked.continued or asked.checked
        self.file, self.is_new = None, bool(asked.output)
        if asked.output or asked.continued:
            with self.failing():
                # (what stood in the file is lost only when there is something to write)
                self.file = open(self.path, "ab")

    @contextlib.contextmanager
    def failing(self) -> Iterator[None]:
        try:
            yield
        except OSError as why:
            raise Ended(4, f"{shown(self.path).decode()}: {why.strerror}") from why

    def add(self, finding: Finding) -> None:
        if self.file is None:
            return
        told = [b"", comment(why_of(finding))]
        for at, label in enumerate(finding.labels):
            told += [comment(f"{counted(len(finding.labels) - 1, 'frame')} around it:".encode())] if at == 1 else []
            told += [comment(b"this label needs --except: %s" % quoted(label)) if needs_a_word(label) else label]
        self.write(b"\n".join(told) + b"\n")

    def write(self, text: bytes) -> None:
        with self.failing():
            if self.is_new:
                os.truncate(self.file.fileno(), 0) if os.path.isfile(self.path) else None
                text, self.is_new = HEAD + text, False
            elif ends_within_a_line(self.path):
                text = b"\n" + text
            self.file.write(text)
            self.file.flush()

    def end(self) -> None:
        if self.is_new:
            self.write(b"")

    def words(self, refined: Refinement) -> Optional[list[bytes]]:
        """The options that leave out the labels found, as words, if there can be such."""
        option = refined.labels.option
        labels = list(refined.labels) if refined.labels.is_only else refined.found
        begun = []
        if self.file is not None:
            begun, labels = [b"--except-from", self.path], [label for label in labels if needs_a_word(label)]
        if len(labels) > MOST_WORDS or any(shown(label) != label for label in labels):
            # (these are too many, or not UTF-8)
            return None
        # If a label begins with a dash, it can't be a word of its own.
        parts = [[option + b"=" + it] if it.startswith(b"-") else [option, it] for it in labels]
        return begun + [word for part in parts for word in part]


def comment(text: bytes) -> bytes:
    """A line that begins with #. Characters of control, as a file's name may have them, are shown; a tab stays, as in labels."""
    return b"# " + re.sub(rb"[\0-\x08\x0a-\x1f\x7f]", lambda it: b"\\x%02x" % it[0][0], shown(text))
