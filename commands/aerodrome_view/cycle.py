"""The cycle of a violation as a report tells it: its events, its transactions, and the event that closes it."""
from __future__ import annotations

import itertools
from dataclasses import dataclass
from typing import Optional

from .members import Json, line, name, parts

OPERATIONS = ("r", "w", "acq", "rel", "fork", "join", "begin", "end")


@dataclass(frozen=True)
class Event:
    """An event of a cycle; `first` is the line of the first event of its transaction."""

    line: int
    first: int
    thread: bytes
    op: str
    target: Optional[bytes]


@dataclass(frozen=True)
class Transaction:
    """A block, or an event by itself, through which a cycle goes.

    `first` is the line of its first event, and `end` of the end of a block: None where that didn't come up to the violation.
    """

    first: int
    thread: bytes
    is_block: bool
    label: Optional[bytes]
    end: Optional[int]

    @property
    def last(self) -> Optional[int]:
        """The line of its last event, None of a block that is open."""
        return self.end if self.is_block else self.first


@dataclass(frozen=True)
class Closing:
    """The first event with which the cycle is there, and its line."""

    line: int
    thread: bytes
    op: str
    target: Optional[bytes]


def events_of(of: Json) -> tuple[Event, ...]:
    """The events of a cycle from the block that is blamed to that block again."""
    cycle, begun = tuple(map(_event, parts(of, "cycle"))), line(of, "begun")
    moves = [before.first != after.first for before, after in zip(cycle, cycle[1:])]
    if len(cycle) < 3 or not cycle[0].first == cycle[-1].first == begun or not moves[0] or not moves[-1]:
        raise ValueError("a cycle that doesn't leave the named block and enter it again")
    if any(not here and not further for here, further in zip(moves, moves[1:])):
        raise ValueError("a cycle with three events of one transaction in a row")
    if any(move and before.line >= after.line for move, before, after in zip(moves, cycle, cycle[1:])):
        raise ValueError("a cycle with a conflict that goes back in time")
    return cycle


def _event(of: Json) -> Event:
    at, first = line(of, "line"), line(of, "first")
    if at < first:
        raise ValueError("a cycle with an event before its transaction")
    return Event(at, first, name(of, "thread"), _operation(of), _target(of))


def closing_of(of: Json) -> Closing:
    closing = of.get("closing")
    if not isinstance(closing, dict):
        raise ValueError("no object closing")
    return Closing(line(of, "line"), name(closing, "thread"), _operation(closing), _target(closing))


def _operation(of: Json) -> str:
    if of.get("op") not in OPERATIONS:
        raise ValueError("an event without an operation")
    return of["op"]


def _target(of: Json) -> Optional[bytes]:
    return name(of, "target") if "target" in of else None


def transactions_of(of: Json, cycle: tuple[Event, ...], closing: Closing) -> dict[int, Transaction]:
    """The transactions of a cycle by their first lines, in the order of these: each fits its events and the others."""
    told, visits = list(map(_transaction, parts(of, "transactions"))), _visits(cycle)
    if [one.first for one in told] != [visit[0].first for visit in visits]:
        raise ValueError("transactions that aren't those of the cycle")
    for one, visit in zip(told, visits):
        _check_visit(one, visit, closing.line)
        if one is not told[0] and visit[0].line > visit[-1].line and one.end is None:
            raise ValueError("a cycle that goes back in time in another open block")
    _check_blamed(of, told[0])
    by_first = {one.first: one for one in sorted(told, key=lambda one: one.first)}
    if any(by_first[one.first] != one for one in told):
        raise ValueError("a transaction that is described in two ways")
    _check_threads(list(by_first.values()))
    _check_closing(closing, cycle[-1], told)
    return by_first


def _transaction(of: Json) -> Transaction:
    is_block = of.get("block")
    if not isinstance(is_block, bool):
        raise ValueError("a transaction without a member that tells whether it is a block")
    if not is_block and ("label" in of or "end" in of):
        raise ValueError("an event by itself with a label or an end")
    label, end = name(of, "label") if "label" in of else None, line(of, "end") if "end" in of else None
    return Transaction(line(of, "first"), name(of, "thread"), is_block, label, end)


def _visits(cycle: tuple[Event, ...]) -> list[list[Event]]:
    """Where a cycle comes into each transaction and where it goes out, that of the named block first."""
    visits = [list(visit) for _, visit in itertools.groupby(cycle, key=lambda event: event.first)]
    return [visits[-1] + visits[0], *visits[1:-1]]


def _check_visit(one: Transaction, visit: list[Event], last: int) -> None:
    if any(event.thread != one.thread for event in visit):
        raise ValueError("a transaction of another thread than its events")
    if not one.is_block and any(event.line != one.first for event in visit):
        raise ValueError("an event by itself with further events")
    if one.end is not None and not max(one.first + 1, *(event.line for event in visit)) <= one.end <= last:
        raise ValueError("a block with an end before its events or after the violation")
    for event in visit if one.is_block else ():
        is_begin = (event.op, event.target) == ("begin", one.label)
        if event.line == one.first and not is_begin or event.line == one.end and event.op != "end":
            raise ValueError("a block whose first or last event isn't its begin or its end")


def _check_blamed(of: Json, one: Transaction) -> None:
    label = name(of, "label") if "label" in of else None
    if not one.is_block or one.end is not None or (one.thread, one.label) != (name(of, "thread"), label):
        raise ValueError("a named block that isn't the open block of the cycle")


def _check_threads(told: list[Transaction]) -> None:
    """Of each thread one transaction follows the other."""
    before: dict[bytes, Transaction] = {}
    for one in told:
        last = before[one.thread].last if one.thread in before else 0
        if last is None or one.first <= last:
            raise ValueError("a thread that is in two transactions at once")
        before[one.thread] = one


def _check_closing(closing: Closing, back: Event, told: list[Transaction]) -> None:
    """With the closing event the cycle comes back to the named block, or a block ends through which it goes."""
    is_back = (closing.line, closing.thread, closing.op, closing.target) == (back.line, back.thread, back.op, back.target)
    is_end = closing.op == "end" and any((one.end, one.thread) == (closing.line, closing.thread) for one in told)
    if not is_back and not (is_end and back.line < closing.line):
        raise ValueError("a closing event that doesn't complete the cycle")
