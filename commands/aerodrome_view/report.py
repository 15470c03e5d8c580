"""The report of `aerodrome --format json --explain`, or of `aerodrome-refine --format json`, an object a line, as findings and the
options of the run."""
from __future__ import annotations

import json
import re
from dataclasses import dataclass, field, replace
from typing import IO, Iterable, Iterator, Optional

from .cycle import Closing, Event, Transaction, closing_of, events_of, transactions_of
from .members import Json, line, name, names, number, parts, word

COUNTS = {  # by verdict: the members that are numbers
    "serializable": ("events", "blocks"),
    "open": ("events", "blocks", "open"),
    "violation": ("line", "begun"),
    "malformed": ("line",),
    "ill-formed": ("line",),
    "broken": ("bytes",),
    "too large": (),
}
LINES = ("line", "begun")  # the numbers that are lines
FAULTS = ("malformed", "ill-formed", "broken", "too large")
FINDINGS = "findings"
SUMMARY = ("traces", "serializable", "open", "violations", "faults")
MEMBER_OF = {"serializable": "serializable", "open": "open", "violation": "violations", **dict.fromkeys(FAULTS, "faults")}
MOST_BYTES = 2**30  # of a source, where its run wasn't given --long
MOST_LABELS = 65_536  # of --except or --only, and of their files
UNCHECKED = b"nothing was checked"  # the note on a source without a block to check begins so
ORDER = b',"order":['  # in a string of JSON the quotes would have a backslash before them
STEP = re.compile(rb'\{"line":\d{1,19},"thread":(?:"(?:[^"\\]|\\.)*"|\{"bytes":"[^"]*"\})\}(?:,(?=\{)|(?=\]))')


class NoReport(Exception):
    """What was read is no report; says which line, and why."""


@dataclass(frozen=True)
class OpenBlock:
    """A block that has no end in the trace: the line of its begin, its thread, and its label, if it has one."""

    line: int
    thread: bytes
    label: Optional[bytes] = None


@dataclass(frozen=True)
class Frame:
    """A block that aerodrome-refine left out: its label, the line of its begin, and how many blocks of the trace have the label."""

    label: bytes
    begun: int
    blocks: int


@dataclass(frozen=True)
class Finding:
    """What the report says of one source. Of a cycle the transactions stand by their first lines, in the order of these.

    The blocks that aerodrome-refine left out are its `frames`: the blamed one, and those around it from the inside outwards.
    If it `is_of_ended`, blocks that were open ended (--end): before the join on the line of their end, or else behind the last line.
    """

    source: bytes
    verdict: str
    counts: dict[str, int]
    thread: bytes = b""
    fault: str = ""
    note: bytes = b""
    label: Optional[bytes] = None
    cycle: tuple[Event, ...] = ()
    transactions: dict[int, Transaction] = field(default_factory=dict)
    closing: Optional[Closing] = None
    opened: tuple[OpenBlock, ...] = ()
    frames: tuple[Frame, ...] = ()
    is_of_ended: bool = False


@dataclass(frozen=True)
class Options:
    """The options of a run, from its summary: which blocks are left out (those of `excepted`, or all except those of `only`),
    with which of these labels no block begins, how many bytes an input may have, and whether open blocks ended. Also the notes of the summary, by the name
    of the input and the number of the line, or 0 for the last note that isn't about a line (if an input couldn't be read, this
    is the reason); and the program's version."""

    excepted: tuple[bytes, ...] = ()
    only: tuple[bytes, ...] = ()
    unused: tuple[bytes, ...] = ()
    most_bytes: int = MOST_BYTES
    notes: dict[tuple[bytes, int], bytes] = field(default_factory=dict)
    version: str = ""
    ends: bool = False

    @property
    def is_long(self) -> bool:
        return self.most_bytes > MOST_BYTES

    def noted(self, finding: Finding) -> Finding:
        """The finding on a faulty or broken input, or on one without a block to check, with the words of the summary's note on it, if
        there is one: they say more."""
        note = self.notes.get((finding.source, finding.counts.get("line", 0)), b"")
        is_unchecked = finding.verdict == "serializable" and note.startswith(UNCHECKED)
        return replace(finding, note=note) if note and (finding.fault or finding.verdict == "broken" or is_unchecked) else finding


@dataclass
class Tally:
    """How many sources of each kind there are, by the names of the summary, and how many findings of aerodrome-refine."""

    of: dict[str, int] = field(default_factory=lambda: dict.fromkeys((FINDINGS, *SUMMARY), 0))

    def add(self, finding: Finding) -> None:
        if finding.frames:
            self.of[FINDINGS] += 1
            return
        self.of["traces"] += 1
        self.of[MEMBER_OF[finding.verdict]] += 1


class Report:
    """A report, or several one after the other, each with its summary behind its sources. It is read once, and kept in a file.

    Where one has no summary, or a line is none of a report, NoReport says so.
    """

    def __init__(self, lines: Iterable[bytes], kept: IO[bytes]) -> None:
        self.kept, self.tally = kept, Tally()
        self.options: list[Options] = []  # of each report
        since, at = Tally(), 0
        for at, whole in enumerate(lines, 1):
            text = _without_order(whole)
            told = _told(text, at)
            if isinstance(told, Finding):
                since.add(told)
                self.tally.add(told)
            elif told.counts == since.of:
                self.options.append(told.options)
                since = Tally()
            else:
                raise NoReport(_wrong(at, "the counts of the summary aren't those of the lines before it"))
            kept.write(text)
        if any(since.of.values()) or not self.options:
            raise NoReport(f"no summary after line {at}: is the report complete, and was it made with --format json?")

    def unused(self) -> list[bytes]:
        """The labels that runs were given, and with which no block began in any of these."""
        given = [(label, label in options.unused) for options in self.options for label in options.excepted + options.only]
        used = {label for label, is_unused in given if not is_unused}
        return list(dict.fromkeys(label for label, _ in given if label not in used))

    def findings(self) -> Iterator[tuple[Finding, Options]]:
        """The findings, each with the options of its run."""
        self.kept.seek(0)
        report = 0
        for at, text in enumerate(self.kept, 1):
            told = _told(text, at)
            if isinstance(told, Finding):
                options = self.options[report]
                yield replace(options.noted(told), is_of_ended=options.ends), options
            else:
                report += 1


@dataclass(frozen=True)
class Summary:
    counts: dict[str, int]
    options: Options


def _without_order(text: bytes) -> bytes:
    """The line without the steps of a serial order, which nothing here shows, and which may be many more than fit into memory as
    objects."""
    start = text.find(ORDER)
    if start < 0:
        return text
    at = first = start + len(ORDER)
    while step := STEP.match(text, at):
        at = step.end()
    return text[:first] + text[at:] if text[at : at + 1] == b"]" else text


def _told(text: bytes, at: int) -> Finding | Summary:
    """What a line of a report says, which is the line `at`."""
    try:
        of = json.loads(text)
        if not isinstance(of, dict):
            raise ValueError("it isn't an object")
        if "finding" in of:
            return _blamed(of)
        return _summary(of) if "traces" in of else _finding(of)
    except (json.JSONDecodeError, UnicodeError, RecursionError):
        raise NoReport(_wrong(at, "it isn't JSON")) from None
    except ValueError as why:
        raise NoReport(_wrong(at, str(why))) from None


def _wrong(at: int, why: str) -> str:
    return f"line {at} isn't a line of --format json: {why}"


def _summary(of: Json) -> Summary:
    excepted, only, limits = names(of, "except"), names(of, "only"), of.get("limits", {"bytes": MOST_BYTES})
    if not isinstance(limits, dict):
        raise ValueError("no object limits")
    if excepted and only or len(excepted + only) > MOST_LABELS:
        raise ValueError("labels of except and only that no run accepts")
    version = word(of, "version") if "version" in of else ""
    options = Options(excepted, only, names(of, "unused"), number(limits, "bytes", 1), _notes(of), version, of.get("end") is True)
    findings = number(of, FINDINGS) if FINDINGS in of else 0
    return Summary({FINDINGS: findings, **{key: number(of, key) for key in SUMMARY}}, options)


def _notes(of: Json) -> dict[tuple[bytes, int], bytes]:
    """The notes of a summary, by input and line, or line 0."""
    notes = parts(of, "notes") if "notes" in of else []
    return {(name(note, "source"), line(note, "line") if "line" in note else 0): name(note, "note") for note in notes}


def _finding(of: Json) -> Finding:
    verdict = word(of, "verdict")
    if verdict not in COUNTS:
        raise ValueError("an unknown verdict")
    is_violation, is_line_faulty = verdict == "violation", verdict in ("malformed", "ill-formed")
    cycle, transactions, closing = _cycle(of) if is_violation and "cycle" in of else ((), {}, None)
    return Finding(
        source=name(of, "source"),
        verdict=verdict,
        counts={key: (line if key in LINES else number)(of, key) for key in COUNTS[verdict]},
        thread=name(of, "thread") if is_violation else b"",
        fault=word(of, "fault") if is_line_faulty else "",
        note=word(of, "note").encode() if is_line_faulty and "note" in of else b"",
        label=name(of, "label") if is_violation and "label" in of else None,
        cycle=cycle,
        transactions=transactions,
        closing=closing,
        opened=_opened(of) if verdict == "open" and "opened" in of else (),
    )


def _blamed(of: Json) -> Finding:
    """What aerodrome-refine found: a violation, with the blamed block and those around it."""
    violation, frames = of.get("violation"), tuple(map(_frame, parts(of, "frames")))
    found = _finding(violation) if isinstance(violation, dict) else None
    if found is None or not found.cycle or not frames:
        raise ValueError("a finding without a violation, its cycle or its frames")
    if (frames[0].label, frames[0].begun) != (found.label, found.counts["begun"]):
        raise ValueError("a finding whose first frame isn't the named block")
    if any(inner.begun <= outer.begun for inner, outer in zip(frames, frames[1:])):
        raise ValueError("frames that aren't in their order, from the inside outwards")
    return replace(found, frames=frames)


def _frame(of: Json) -> Frame:
    return Frame(name(of, "label"), line(of, "begun"), number(of, "blocks", 1))


def _opened(of: Json) -> tuple[OpenBlock, ...]:
    """The first open blocks, in the order of their begins, and no more than there are."""
    blocks = tuple(_open_block(block) for block in parts(of, "opened"))
    if len(blocks) > number(of, "open") or any(one.line >= next.line for one, next in zip(blocks, blocks[1:])):
        raise ValueError("open blocks that aren't in the order of their begins, or too many of them")
    return blocks


def _open_block(of: Json) -> OpenBlock:
    return OpenBlock(line(of, "line"), name(of, "thread"), name(of, "label") if "label" in of else None)


def _cycle(of: Json) -> tuple[tuple[Event, ...], dict[int, Transaction], Closing]:
    """A cycle: it stands with its transactions and its closing event."""
    cycle, closing = events_of(of), closing_of(of)
    return cycle, transactions_of(of, cycle, closing), closing
