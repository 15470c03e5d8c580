"""What both commands do alike: their words, errors in one line, and nothing written before all is known."""
from __future__ import annotations

import errno
import os
import shutil
import signal
import sys
import tempfile
from dataclasses import dataclass
from typing import IO, Any, Callable, Iterator

from .names import shown
from .report import NoReport, Report

REFUSED, FAILED = 3, 4  # statuses, as those of the program
MOST = 1_000_000  # of a number on the command line
FLAGS = {"--no-traces": "no_traces"}
TEXTS = {"-o": "output", "--output": "output", "--folder": "folder", "--root": "root"}
NUMBERS = {"--context": "context", "--pictures": "pictures", "--rows": "rows"}


class Refused(Exception):
    """Why the command line or the report is refused."""


class Failed(Exception):
    """Why the output couldn't be kept or written."""


@dataclass
class Asked:
    """What the command line asks for."""

    report: str = "-"
    output: str = ""
    folder: str = ""
    root: str = ""
    no_traces: bool = False
    context: int = 2
    pictures: int = 200
    rows: int = 2000


Make = Callable[[Asked, Report, IO[str]], None]


def run(name: str, usage: str, words: list[str], further: tuple[str, ...], make: Make) -> int:
    """Reads a report, writes what `make` makes of it, and answers the status. The command takes the options `further` too."""
    signal.signal(signal.SIGINT, signal.SIG_DFL)
    try:
        if sys.stdout is None:
            raise Failed("write failed")
        if words_before(words, ("-h", "--help")):
            write(lambda out: out.write(usage), "")
            return 0
        asked = settle(words, (*FLAGS, *TEXTS, *further))
        if asked.root and not os.path.isdir(asked.root):
            raise Refused(f"--root: no folder {told(asked.root)}")
        with unnamed("wb+") as kept, unnamed() as whole:
            make(asked, Report(lines_of(asked.report), kept), whole)
            whole.seek(0)
            write(lambda out: shutil.copyfileobj(whole, out), asked.output)
    except NoReport as why:
        return say(name, f"{shown(os.fsencode(asked.report))}: {why}", REFUSED)
    except Refused as why:
        return say(name, str(why), REFUSED)
    except BrokenPipeError:
        return FAILED
    except (Failed, MemoryError) as why:
        return say(name, str(why) or "out of memory", FAILED)
    except OSError as why:
        return say(name, f"a temporary file can't be written: {why.strerror}", FAILED)
    return 0


def words_before(words: list[str], wanted: tuple[str, ...]) -> bool:
    """Whether one of the wanted words is an option among the words."""
    return any(word in wanted for word in words[: words.index("--") if "--" in words else None])


def settle(words: list[str], options: tuple[str, ...]) -> Asked:
    asked, reports, left = Asked(), [], iter(words)
    for word in left:
        option, equals, value = word.partition("=")
        if word == "--":
            reports += left
        elif not word.startswith("-") or word == "-":
            reports.append(word)
        elif option not in options or option in FLAGS and equals:
            raise Refused(f"no option {told(word)} (if it is a REPORT, write -- before it)")
        elif option in FLAGS:
            setattr(asked, FLAGS[option], True)
        else:
            set_value(asked, option, value if equals else next(left, None))
    if len(reports) > 1:
        raise Refused(f"more than one REPORT: {told(reports[1])}")
    asked.report = reports[0] if reports else "-"
    return asked


def set_value(asked: Asked, option: str, value: str | None) -> None:
    if value is None:
        raise Refused(f"{option} needs a value")
    if option in TEXTS:
        setattr(asked, TEXTS[option], value)
    elif value.isascii() and value.isdigit() and len(value) < 10 and int(value) <= MOST:
        setattr(asked, NUMBERS[option], int(value))
    else:
        raise Refused(f"{option} needs a number up to {MOST}: {told(value)}")


def told(word: str) -> str:
    return shown(os.fsencode(word))


def lines_of(report: str) -> Iterator[bytes]:
    try:
        # (where standard input was closed, its number may be that of another file)
        if report == "-" and sys.stdin is None:
            raise OSError(errno.EBADF, os.strerror(errno.EBADF))
        with open(0 if report == "-" else report, "rb", closefd=report != "-") as lines:
            yield from lines
    except OSError as why:
        raise Refused(f"{told(report)}: {why.strerror}") from None


def unnamed(mode: str = "w+") -> IO[Any]:
    """A file without a name, in which the report or what is made of it is kept: as text, or as bytes where the mode says so."""
    form = {} if "b" in mode else {"encoding": "utf-8", "newline": "\n"}
    try:
        return tempfile.TemporaryFile(mode, **form)
    except OSError as why:
        raise Failed(f"no temporary file: {why.strerror}") from None


def write(fill: Callable[[IO[str]], object], path: str) -> None:
    """Writes to the file at a path, or to standard output."""
    try:
        with open(path or 1, "w", encoding="utf-8", newline="\n", closefd=bool(path)) as out:
            fill(out)
    except BrokenPipeError:
        raise
    except OSError as why:
        raise Failed(f"{told(path)}: {why.strerror}" if path else "write failed") from None


def say(name: str, text: str, status: int) -> int:
    if sys.stderr is not None:
        try:
            os.write(2, f"{name}: {text}\n".encode())
        except OSError:
            pass
    return status
