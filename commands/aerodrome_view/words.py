"""The words for a finding, with names that `dress` shows: verdicts, faults, and why there is no serial order."""
from __future__ import annotations

from dataclasses import dataclass
from typing import Callable, Iterator

from .cycle import Event, Transaction
from .names import shown
from .report import UNCHECKED, Finding, Options

Dress = Callable[[bytes], str]

MOST_LABELS = 8  # of those with which no block begins
MOST_OPENED = 5  # of the blocks that didn't end
MOST_AROUND = 20  # of the blocks around the blamed one
MOST_THROUGH = 5  # of the other blocks of a cycle
MOST_DETOURS = 3  # blocks with a sentence of their own that a cycle leaves earlier than it enters them

KINDS = {  # of conflicts, each with its name
    "write-read": "write, then read",
    "read-write": "read, then write",
    "write-write": "write, then write",
    "lock": "release, then acquire",
    "fork": "fork or join",
    "join": "fork or join",
    "thread": "same thread",
    "other": "another conflict",
}
KIND_OF = {("w", "r"): "write-read", ("r", "w"): "read-write", ("w", "w"): "write-write", ("rel", "acq"): "lock"}
MOSTLY = {  # the usual reasons why an event is impossible
    "TooManyThreads": "the threads of a pool get new names again and again",
    "TooManyNames": "memory gets a new name each time it is allocated again",
    "ThreadJoined": "a thread's name is used again for another thread",
    "LockHeldByOther": "an acquire is logged before the thread has the lock, or a release after it has given the lock back",
    "LockNotHeld": "logging began while the lock was held, or another thread releases it, as with a semaphore",
    "ForkStarted": "the fork is logged after the new thread has begun",
    "EndWithoutBegin": "logging began inside a block",
}


LOGGER = b"aerodrome"  # the thread of the block that a logger begins where it ends a log early
CUT = {  # the reasons, by the label of this block
    b"cut:limit": "AERODROME_LIMIT was reached",
    b"cut:write": "a line couldn't be written",
    b"cut:threads": "the program had more threads than the logger can number",
    b"cut:memory": "the logger got no memory for its tables",
    b"cut:fiber": "the program switched stacks, so the logger couldn't tell its threads apart",
    b"cut:blocks": "a library that the program loaded lacks a function that AERODROME_BLOCKS names",
    b"cut:lock": "a thread kept the log's lock for ten seconds",
    b"cut:killed": "the program ended without ending the log, for example because it was killed",
}


@dataclass(frozen=True)
class Arrow:
    """A conflict of two events that follow each other in a cycle: the transaction of the first event must come first."""

    number: int
    before: Event
    after: Event
    kind: str


def unused(labels: list[bytes], dress: Dress) -> str:
    """That no block begins with these labels."""
    said = ", ".join(dress(b"begin(" + label + b")") for label in labels[:MOST_LABELS])
    left = len(labels) - MOST_LABELS
    more = f" and {counted(left, 'more label')}" if left > 0 else ""
    return f"No block begins with {said}{more}. Perhaps {'the label is' if len(labels) == 1 else 'these labels are'} mistyped."


def arrows_of(cycle: tuple[Event, ...]) -> list[Arrow]:
    pairs = [(before, after) for before, after in zip(cycle, cycle[1:]) if before.first != after.first]
    return [Arrow(number, before, after, kind_of(before, after)) for number, (before, after) in enumerate(pairs, 1)]


def kind_of(before: Event, after: Event) -> str:
    if before.thread == after.thread:
        return "thread"
    if before.op == "fork" and before.target == after.thread:
        return "fork"
    if after.op == "join" and after.target == before.thread:
        return "join"
    if before.target == after.target:
        return KIND_OF.get((before.op, after.op), "other")
    return "other"


def roles_of(arrows: list[Arrow]) -> dict[int, str]:
    """By line, the numbers of the arrows that end and begin there."""
    into = {arrow.after.line: f"\u2192{arrow.number}" for arrow in arrows}
    out = {arrow.before.line: f"{arrow.number}\u2192" for arrow in arrows}
    return {line: f"{into.get(line, '')} {out.get(line, '')}".strip() for line in into.keys() | out.keys()}


def action_of(event: Event, dress: Dress = shown) -> str:
    """The operation of an event, as it is written in a trace after the thread."""
    return event.op if event.target is None else f"{event.op}({dress(event.target)})"


def counted(number: int, one: str) -> str:
    return f"{number:,} {one}{'' if number == 1 else 's'}"


def named(of: Transaction, dress: Dress) -> str:
    if not of.is_block:
        return f"the event of {dress(of.thread)} on line {of.first}"
    if of.label is None:
        return f"the block of {dress(of.thread)} from line {of.first}"
    return f"{dress(of.label)} of {dress(of.thread)} (line {of.first})"


def capital(text: str) -> str:
    return "T" + text[1:] if text.startswith("the ") else text


def because(arrow: Arrow, dress: Dress) -> str:
    """Why the first transaction must come first."""
    before, after = arrow.before, arrow.after
    first, second, what = dress(before.thread), dress(after.thread), dress(before.target or b"")
    here, there = f"on line {before.line}", f"on line {after.line}"
    return {
        "write-read": f"{first} writes {what} {here}, before {second} reads it {there}",
        "read-write": f"{first} reads {what} {here}, before {second} writes it {there}",
        "write-write": f"{first} writes {what} {here}, before {second} writes it {there}",
        "lock": f"{first} releases {what} {here}, before {second} acquires it {there}",
        "fork": f"{first} starts {second} {here}, before everything that {second} does, for example {there}",
        "join": f"{second} waits {there} for the end of {first}, after everything that {first} does, for example {here}",
        "thread": f"{first} does the event on line {before.line} before the one on line {after.line}",
        "other": f"line {before.line} conflicts with line {after.line}",
    }[arrow.kind]


def reasons(finding: Finding, dress: Dress, is_apart: bool = False) -> Iterator[str]:
    """A sentence for each conflict of a cycle, in its order: together they rule out every serial order.

    If each is read by itself (`is_apart`), none refers to a sentence before it.
    """
    arrows, of = arrows_of(finding.cycle), finding.transactions
    blamed = named(of[finding.counts["begun"]], dress)
    for arrow in arrows:
        before, after = (named(of[event.first], dress) for event in (arrow.before, arrow.after))
        if len(arrows) > 2 or is_apart:
            yield f"{capital(before)} must come before {after}: {because(arrow, dress)}."
        elif arrow.number == 1:
            yield f"{capital(after)} must come after {blamed}: {because(arrow, dress)}."
        else:
            yield f"And it must come before {blamed}: {because(arrow, dress)}."


def conclusion(finding: Finding, dress: Dress) -> str:
    if len(arrows_of(finding.cycle)) > 2:
        return f"So {named(finding.transactions[finding.counts['begun']], dress)} would have to come before itself."
    return "No serial order satisfies both."


def around(finding: Finding, dress: Dress) -> str:
    """The blocks around the blamed one that are blamed at the same event; empty if there are none."""
    outer = finding.frames[1:]
    if not outer:
        return ""
    told = ", ".join(f"{dress(frame.label)} (line {frame.begun})" for frame in outer[:MOST_AROUND])
    left = len(outer) - MOST_AROUND
    more = f" and {counted(left, 'more block')}" if left > 0 else ""
    are = "is a block that is" if len(outer) == 1 else f"are {len(outer)} blocks that are"
    return f"Around it {are} blamed at the same event: {told}{more}."


def through(finding: Finding, dress: Dress) -> str:
    """The other blocks of a cycle, each once."""
    named_ones = dict.fromkeys(
        f"a block of {dress(one.thread)}" if one.label is None else f"{dress(one.label)} of {dress(one.thread)}"
        for one in finding.transactions.values()
        if one.is_block and one.first != finding.counts["begun"]
    )
    left = len(named_ones) - MOST_THROUGH
    more = [counted(left, "more block")] if left > 0 else []
    return ", ".join([*list(named_ones)[:MOST_THROUGH], *more])


def detours(finding: Finding, dress: Dress) -> Iterator[str]:
    """Sentences on the blocks, except the blamed one, that the cycle leaves by an earlier event than it enters them: one for each of a
    few, and one for all if there are more."""
    pairs = zip(finding.cycle[1:], finding.cycle[2:-1])
    found = [(entered, left) for entered, left in pairs if entered.first == left.first and entered.line > left.line]
    for entered, left in found[: MOST_DETOURS if len(found) <= MOST_DETOURS else 0]:
        one = finding.transactions[left.first]
        yield (
            f"The cycle enters {named(one, dress)} on line {entered.line}, and leaves it on line {left.line}, which is earlier. "
            f"This counts because the block has ended (line {one.end}): a serial order keeps it in one piece."
        )
    if len(found) > MOST_DETOURS:
        entered, left = found[0]
        yield (
            f"The cycle leaves {counted(len(found), 'block')} on an earlier line than it enters them. For example, it enters "
            f"{named(finding.transactions[left.first], dress)} on line {entered.line}, and leaves it on line {left.line}. "
            "This counts because these blocks have ended: a serial order keeps each of them in one piece."
        )


def sentence(finding: Finding, options: Options, dress: Dress, quote: Dress = shown) -> str:
    """The verdict of the report on a trace, in a sentence or two. `quote` shows the program's own words."""
    counts, verdict = finding.counts, finding.verdict
    if verdict == "violation":
        label = "" if finding.label is None else f" {dress(finding.label)}"
        return (
            f"The block{label} of {dress(finding.thread)} from line {counts['begun']} isn't atomic: "
            f"line {counts['line']} completes a cycle through it{ending(finding, dress)}."
        )
    if verdict in ("malformed", "ill-formed"):
        return faulty(finding, dress, quote)
    if verdict == "broken":
        why = f": {quote(finding.note)}." if finding.note else ". A note on standard error gave the reason."
        if not counts["bytes"]:
            return f"It couldn't be opened, or the first read failed{why}"
        return f"A read failed after {counted(counts['bytes'], 'byte')}{why}"
    if verdict == "too large":
        advice = "" if options.is_long else " With --long any size is accepted."
        return f"It has more than {power(options.most_bytes)} bytes.{advice}"
    size = f"{counted(counts['events'], 'event')}, {counted(counts['blocks'], 'block')}"
    if verdict == "open":
        return unfinished(finding, dress)
    if finding.note:
        return f"Nothing was checked{quote(finding.note.removeprefix(UNCHECKED))} ({size})."
    if not counts["blocks"]:
        return f"There was no block to check ({size})."
    return f"Each block behaves as if it had run alone ({size})."


def why_cut(finding: Finding) -> str:
    """The reason why a logger ended the trace early; empty if the report has no block that says so."""
    return next((CUT[one.label] for one in finding.opened if one.thread == LOGGER and one.label in CUT), "")


def unfinished(finding: Finding, dress: Dress) -> str:
    """That no violation was found, but blocks are open; and if there are several, that they may hide one. Also why the log was cut."""
    counts, why = finding.counts, why_cut(finding)
    cut = f"The log was cut, because {why}. The verdict is only on the lines before that. " if why else ""
    events, blocks = counted(counts["events"], "event"), counted(counts["blocks"], "block")
    have = "has" if counts["open"] == 1 else "have"
    hidden = " A cycle that goes back in time in two or more of them may be hidden." if counts["open"] > 1 else ""
    return f"{cut}No violation was found in {events}, but {counts['open']:,} of {blocks} {have} no end{still_open(finding, dress)}.{hidden}"


def still_open(finding: Finding, dress: Dress) -> str:
    """The first few blocks that didn't end, if the report has them."""
    told = [
        f"{'a block' if block.label is None else dress(block.label)} of {dress(block.thread)} from line {block.line}"
        for block in finding.opened[:MOST_OPENED]
    ]
    left = finding.counts["open"] - len(told)
    more = f" and {counted(left, 'more block')}" if left else ""
    return f": {', '.join(told)}{more}" if told else ""


def ending(finding: Finding, dress: Dress) -> str:
    """The addition for a cycle that the end of a block completes."""
    if finding.closing is None or finding.closing.op != "end":
        return ""
    return f", because a block of {dress(finding.closing.thread)} ended there"


def faulty(finding: Finding, dress: Dress, quote: Dress) -> str:
    """The fault of a line, in the words of the program if the report has them."""
    line, name = finding.counts["line"], dress(finding.fault.encode())
    note = f": {quote(finding.note)}" if finding.note else ""
    if finding.verdict == "malformed":
        return f"Line {line} isn't an event{note} ({name})."
    mostly = MOSTLY.get(finding.fault, "")
    return f"The event on line {line} is impossible there{note} ({name}).{f' This often happens because {mostly}.' if mostly else ''}"


def power(number: int) -> str:
    """A number; a power of two is written as one."""
    return f"{number:,}" if number & (number - 1) else f"2^{number.bit_length() - 1}"
