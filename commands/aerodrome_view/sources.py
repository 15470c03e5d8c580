"""Places in the code of a logged program: what a log has of them, and the files below a folder."""
from __future__ import annotations

import itertools
import os
import re
from dataclasses import dataclass
from typing import Optional

PLACE = re.compile(rb"(.+?):([1-9][0-9]{0,8})(?::([1-9][0-9]{0,8}))?")
MOST_BYTES = 1 << 24  # of a file whose lines are shown
MOST_FILES = 200_000  # below a folder, among which a file is looked for by its name


@dataclass(frozen=True)
class Place:
    """A line of a file, by the path that the log has; column 0 where the log has none."""

    path: bytes
    line: int
    column: int


def place_of(location: bytes) -> Optional[Place]:
    """The place that an event's location tells as FILE:LINE or FILE:LINE:COLUMN."""
    found = PLACE.fullmatch(location)
    return Place(found[1], int(found[2]), int(found[3] or 0)) if found else None


class Sources:
    """The files below a folder, without a link that leads out of it. Without a folder there are none."""

    def __init__(self, root: str) -> None:
        self.root = os.path.realpath(os.fsencode(root)) if root else b""
        self.by_name: Optional[dict[bytes, Optional[bytes]]] = None

    def path_of(self, path: bytes) -> Optional[bytes]:
        """The path below the folder of the file that a log calls `path`, or None where there is none.

        A file that a log calls by its name alone, as Java's do, may lie in any folder below, if it is the only one of its name.
        """
        if not self.root:
            return None
        inside = self._inside(os.path.join(self.root, path))
        if inside is None and b"/" not in path:
            inside = self._names().get(path)
        return inside

    def name_of(self, path: bytes) -> Optional[bytes]:
        """The path below the folder, also of a file that isn't there any more; None where `path` leads elsewhere."""
        whole, below = os.path.normpath(path), self.root.rstrip(b"/") + b"/"
        return self.path_of(path) or (whole[len(below) :] if self.root and whole.startswith(below) else None)

    def line_of(self, place: Place) -> bytes:
        """The text on a line of a file below the folder, empty where there is none."""
        path = self.path_of(place.path)
        if path is None:
            return b""
        whole = os.path.join(self.root, path)
        try:
            with open(whole, "rb") as file:
                lines = file if os.path.getsize(whole) <= MOST_BYTES else []
                return next(itertools.islice(lines, place.line - 1, None), b"").strip()
        except OSError:
            return b""

    def _inside(self, path: bytes) -> Optional[bytes]:
        if b"\0" in path:
            return None
        whole, below = os.path.realpath(path), self.root.rstrip(b"/") + b"/"
        return whole[len(below) :] if whole.startswith(below) and os.path.isfile(whole) else None

    def _names(self) -> dict[bytes, Optional[bytes]]:
        """The path of each file below the folder by the file's name, None where several have it; hidden folders don't count."""
        if self.by_name is None:
            self.by_name, left = {}, MOST_FILES
            for folder, folders, files in os.walk(self.root):
                folders[:] = sorted(name for name in folders if not name.startswith(b"."))
                for name in files[:left]:
                    self.by_name[name] = None if name in self.by_name else self._inside(os.path.join(folder, name))
                left -= len(files)
                if left <= 0:
                    break
        return self.by_name
