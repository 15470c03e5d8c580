"""The program's answers, and the findings that they make."""
from __future__ import annotations

import re
from dataclasses import dataclass
from typing import Optional

from .names import Json, bytes_of, counted, json_of
from .trace import Trace

# The thread of the block that a logger begins where it ends a log early, and how its label begins.
LOGGER, CUT = b"aerodrome", b"cut:"
# (a label may begin no block of this trace, and one of the next)
ON_LABELS = re.compile(rb"^aerodrome: no block begins with (begin\(|[0-9]+ more of the labels).*\n", re.M)


class Answer:
    """The program's answer on a trace."""

    def __init__(self, trace: Trace, status: int, report: Json, summary: Json, notes: bytes) -> None:
        self.trace, self.status, self.report, self.summary = trace, status, report, summary
        self.notes = ON_LABELS.sub(b"", notes)
        self.verdict, self.line = report["verdict"], report.get("line", 0)
        self.is_violation = self.verdict == "violation"
        self.label = bytes_of(report["label"]) if self.is_violation and "label" in report else None
        # The block that it blames, and why its violation remains.
        self.block = (bytes_of(report["thread"]), report["begun"], self.line) if self.is_violation else None
        self.refusal = ""
        # (the program knows a file by the name that it was given)
        report["source"] = json_of(trace.word)

    @property
    def has_block(self) -> bool:
        """Whether a block was checked, or the trace isn't judged to its end."""
        return self.verdict != "serializable" or self.report["blocks"] > 0

    @property
    def cut(self) -> str:
        """The label that says why a logger ended the log early; empty if it didn't."""
        blocks = self.report.get("opened", ()) if self.verdict == "open" else ()
        labels = [bytes_of(it["label"]) for it in blocks if "label" in it and bytes_of(it["thread"]) == LOGGER]
        return next((label.decode("ascii", "replace") for label in labels if label.startswith(CUT)), "")

    @property
    def text(self) -> bytes:
        """The line of the program's report."""
        of, name = self.report, self.trace.name
        if self.is_violation:
            told = b": violation at line %d: block of %s from line %d" % (self.line, self.block[0], self.block[1])
        elif self.verdict == "serializable":
            told = b": serializable (%d events, %d blocks)" % (of["events"], of["blocks"])
        elif self.verdict == "open":
            told = b": no violation, %d blocks open (%d events, %d blocks)" % (of["open"], of["events"], of["blocks"])
        elif self.verdict == "broken":
            told = b": broken after %d bytes" % of["bytes"]
        elif self.verdict == "too large":
            told = b": too large"
        else:
            told = f":{self.line}: {self.verdict}: {of['fault']}".encode()
        return name + told

    def inward(self) -> list[tuple[tuple[bytes, int, int], Optional[bytes]]]:
        """The blocks within the blamed one, from the outside inwards, that are open at the first event of the cycle and at the closing
        one, each as `block` has it, with its label. They are blamed next, it seems."""
        thread, begun, closing = self.block
        opened, common = [], None
        first = self.report["cycle"][0]["line"]
        for line, op, label in self.trace.bounds(thread, begun, closing):
            common = len(opened) if common is None and line > first else common
            if op == b"begin":
                opened.append(((thread, line, closing), label))
            else:
                opened = opened[:-1]
                common = None if common is None else min(common, len(opened))
        return opened[1:common]


@dataclass
class Finding:
    """A blamed block, with the blocks around it that were blamed at the same event: the answers, from the outside inwards."""

    answers: list[Answer]
    inward: list[tuple[tuple[bytes, int, int], Optional[bytes]]]

    def has_next(self, answer: Answer) -> bool:
        """Whether the answer blames one of the blocks within, at the same event."""
        return answer.block in [block for block, _ in self.inward]

    def add(self, answer: Answer) -> None:
        at = [block for block, _ in self.inward].index(answer.block)
        self.inward = self.inward[at + 1 :]
        self.answers.append(answer)

    @property
    def labels(self) -> list[bytes]:
        """The labels, from the inside outwards."""
        return [answer.label for answer in reversed(self.answers)]


def why_of(finding: Finding) -> bytes:
    """The violation of a finding, and the other blocks of its cycle."""
    last = finding.answers[-1]
    others = [it for it in last.report.get("transactions", [])[1:] if it["block"]]
    through = [
        b"%s of %s (line %d)" % (bytes_of(it.get("label", "a block")), bytes_of(it["thread"]), it["first"]) for it in others[:3]
    ]
    through += [f"{counted(len(others) - 3, 'more block')}".encode()] if len(others) > 3 else []
    return last.text + (b"; the cycle also goes through " + b", ".join(through) if through else b"")
