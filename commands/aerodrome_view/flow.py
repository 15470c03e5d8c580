"""A cycle as SARIF has it: places in files, and for each thread those that it passes, in one order over all threads."""
from __future__ import annotations

import os
from typing import Any, Optional
from urllib.parse import quote

from . import words
from .cycle import Event, Transaction
from .names import plain
from .report import Finding
from .sources import Sources, place_of
from .trace import Seen
from .words import action_of, arrows_of

Json = dict[str, Any]
KINDS = {
    "r": ["memory"],
    "w": ["memory"],
    "acq": ["acquire", "lock"],
    "rel": ["release", "lock"],
    "fork": ["call"],
    "join": ["return"],
    "begin": ["enter", "scope"],
    "end": ["exit", "scope"],
}
ESCAPES = {ord("["): "\\[", ord("]"): "\\]", ord("{"): "{{", ord("}"): "}}", ord("\\"): "\\\\"}
MOST_LOCATIONS = 1000  # of one thread: services refuse more


def message(told: str) -> Json:
    """A message. What would be a link or a placeholder there is escaped, since names may have anything."""
    return {"text": told.translate(ESCAPES)}


def artifact(path: bytes, inside: Optional[bytes]) -> Json:
    """A file: by its path below the root where it lies there, and else by the path that is told."""
    if inside is not None:
        return {"uri": quote(inside), "uriBaseId": "%SRCROOT%"}
    if path.startswith(b"/"):
        return {"uri": "file://" + quote(path)}
    return {"uri": quote(path.removeprefix(b"./")) or "."}


def at_line(file: Json, line: int, column: int = 0) -> Json:
    region = {"startLine": line, **({"startColumn": column} if column else {})}
    return {"physicalLocation": {"artifactLocation": file, "region": region}}


class Places:
    """The lines of the trace of a finding, and what these tell of the code, as locations."""

    def __init__(self, finding: Finding, seen: Seen, sources: Sources, folder: str) -> None:
        self.seen, self.sources = seen, sources
        trace = finding.source if finding.source == b"-" else os.path.join(os.fsencode(folder), finding.source)
        self.trace = artifact(trace, sources.name_of(os.path.abspath(trace)))

    def in_trace(self, line: int) -> Json:
        """A line of the trace; its first where the finding has none, since code scanning wants one."""
        return at_line(self.trace, line or 1)

    def in_source(self, line: int) -> Optional[Json]:
        """The place in the code that a line of the trace tells, if it tells one."""
        found = place_of(self.seen.location_of(line))
        return at_line(artifact(found.path, self.sources.name_of(found.path)), found.line, found.column) if found else None

    def of(self, line: int, told: str) -> Json:
        return {**(self.in_source(line) or self.in_trace(line)), "message": message(told)}


class Flow:
    """A cycle as the places that an editor walks through."""

    def __init__(self, finding: Finding, places: Places) -> None:
        self.finding, self.places = finding, places
        self.roles: dict[int, list[str]] = {}
        for arrow, reason in zip(arrows_of(finding.cycle), words.reasons(finding, plain, is_apart=True)):
            for event in (arrow.before, arrow.after):
                self.roles.setdefault(event.line, []).append(reason)

    def threads(self) -> list[Json]:
        """For each thread of the cycle its events, and the begins and ends of its blocks, in the order of their lines."""
        events = {event.line: event for event in self.finding.cycle}
        blocks = [one for one in self.finding.transactions.values() if one.is_block]
        edges = {line: one for one in blocks for line in (one.first, one.end) if line and line not in events}
        by_thread: dict[bytes, list[Json]] = {}
        for order, line in enumerate(sorted([*events, *edges]), 1):
            if line in events:
                by_thread.setdefault(events[line].thread, []).append(self.event(events[line], order))
            else:
                by_thread.setdefault(edges[line].thread, []).append(self.edge(edges[line], line, order))
        return [
            {"id": plain(thread), "message": message(f"thread {plain(thread)}"), "locations": locations[:MOST_LOCATIONS]}
            for thread, locations in by_thread.items()
        ]

    def event(self, event: Event, order: int) -> Json:
        told = f"line {event.line}: {plain(event.thread)} {action_of(event, plain)}. {' '.join(self.roles[event.line])}"
        is_inside = event.line != event.first
        return {
            "location": self.places.of(event.line, told),
            "kinds": KINDS[event.op],
            "nestingLevel": int(is_inside),
            "executionOrder": order,
            "importance": "essential",
            "properties": {"line": event.line},
        }

    def edge(self, one: Transaction, line: int, order: int) -> Json:
        """A block's begin, or its end."""
        op = "begin" if line == one.first else "end"
        return {
            "location": self.places.of(line, f"line {line}: {words.named(one, plain)} {op}s"),
            "kinds": KINDS[op],
            "nestingLevel": 0,
            "executionOrder": order,
            "importance": "important",
            "properties": {"line": line},
        }
