"""Runs of the program over the traces, several at once."""
from __future__ import annotations

import contextlib
import itertools
import json
import os
import select
import signal
import subprocess
from typing import Iterator

from .answer import Answer
from .files import piped, unnamed
from .labels import Labels
from .messages import Ended, tell
from .names import bytes_of, shown
from .progress import TICK, Progress
from .trace import Trace

PROGRAM = os.environb.get(b"AERODROME") or b"aerodrome"
AHEAD = 2  # passes that are kept ahead of their turn, for each that runs
ENDING = (signal.SIGHUP, signal.SIGINT, signal.SIGTERM)
# (of a trace all of whose blocks are left out)
UNCHECKED = "nothing was checked: no block begins, or each one is left out by its label"


class Pass:
    """A run of the program over a trace, with some blocks left out."""

    def __init__(self, trace: Trace, labels: Labels, options: list[bytes]) -> None:
        self.trace, self.leaves_out, self.is_done, self.was_beside = trace, any(labels), False, False
        with contextlib.ExitStack() as opened:
            here = opened.enter_context(trace.given())
            self.report, self.notes, listed = unnamed(), unnamed(), opened.enter_context(unnamed())
            listed.write(b"".join(label + b"\n" for label in labels.listed))
            listed.flush()
            # (the program holds the other end of a pipe as long as it lasts)
            self.lasts, end = piped()
            opened.callback(os.close, end)
            words = [PROGRAM, b"--explain", b"--format=json", *options, *(labels.option + b"=" + it for it in labels.words)]
            words += [labels.option + b"-from=/dev/fd/%d" % listed.fileno()] if labels.listed else []
            files = {"stdin": here, "stdout": self.report, "stderr": self.notes, "pass_fds": (listed.fileno(), end)}
            try:
                self.process = subprocess.Popen([*words, *trace.words], preexec_fn=heed, **files)
            except OSError as why:
                raise Ended(127, f"{shown(PROGRAM).decode()}: {why.strerror}") from why

    def finish(self) -> int:
        """The status of the program, which has ended or is about to."""
        self.is_done = True
        return self.process.wait()

    def end(self) -> None:
        """Ends the program if it still runs."""
        self.process.kill()
        self.process.wait()
        for file in (self.report, self.notes):
            file.close()
        os.close(self.lasts)

    def answer(self) -> Answer:
        status = self.finish()
        self.report.seek(0)
        self.notes.seek(0)
        if status not in (0, 1, 2):
            tell(self.notes.read())
            raise Ended(128 - status if status < 0 else status, "")
        try:
            report, summary = map(json.loads, self.report)
            notes = self.notes.read()
            if self.leaves_out:
                notes = notes.replace(b"aerodrome: " + bytes_of(report["source"]) + f": {UNCHECKED}\n".encode(), b"")
                summary["notes"] = [it for it in summary.get("notes", ()) if it["note"] != UNCHECKED]
            return Answer(self.trace, status, report, summary, notes)
        except (ValueError, KeyError, TypeError):
            raise Ended(3, f"{shown(PROGRAM).decode()} prints no report") from None


class Passes:
    """The passes that run, several at once. Which one is wanted first, and which ones may follow, is said each time."""

    def __init__(self, traces: list[Trace], options: list[bytes], most: int, progress: Progress) -> None:
        self.traces, self.options, self.most, self.progress = traces, options, most, progress
        self.begun: dict[tuple[int, Labels], Pass] = {}

    def answer(self, expected: Iterator[tuple[int, Labels]]) -> Answer:
        """The answer of the first expected pass. Those after it are begun too, since they may be wanted next."""
        keys = list(itertools.islice(expected, self.most * AHEAD if self.most > 1 else 1))
        self.end(but=keys)
        while not (first := self.begun.get(keys[0])) or not first.is_done:
            self.begin_some(keys)
            self.await_one()
        if first.was_beside and first.process.returncode not in (0, 1, 2):
            # (perhaps memory was short beside the others)
            self.end()
            self.begin(keys[0])
        self.begun[keys[0]].finish()
        answer = self.begun[keys[0]].answer()
        self.end(but=keys[1:])
        return answer

    def under_way(self) -> list[Pass]:
        return [it for it in self.begun.values() if not it.is_done]

    def begin_some(self, keys: list[tuple[int, Labels]]) -> None:
        """Begins as many passes as there is room for."""
        left = [key for key in keys if key not in self.begun]
        for key in left[: max(0, self.most - len(self.under_way()))]:
            self.begin(key)

    def begin(self, key: tuple[int, Labels]) -> None:
        """Begins a pass. A signal that would end this process waits until the pass is known."""
        signal.pthread_sigmask(signal.SIG_BLOCK, ENDING)
        try:
            self.begun[key] = Pass(self.traces[key[0]], key[1], self.options)
        finally:
            heed()
        together = self.under_way()
        for it in together:
            it.was_beside = it.was_beside or len(together) > 1

    def await_one(self) -> None:
        """Waits until a pass ends, and for a fifth of a second at most."""
        by_file = {it.lasts: it for it in self.under_way()}
        for file in select.select(list(by_file), [], [], TICK)[0]:
            by_file[file].finish()
        self.progress.show()

    def end(self, but: list[tuple[int, Labels]] = ()) -> None:
        """Ends all passes except some."""
        wanted = set(but)
        for key in [key for key in self.begun if key not in wanted]:
            self.begun.pop(key).end()


def heed() -> None:
    """Lets those signals through again that were held back while the program was started."""
    signal.pthread_sigmask(signal.SIG_UNBLOCK, ENDING)
