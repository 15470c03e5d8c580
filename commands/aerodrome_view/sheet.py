"""What the pictures of a cycle have in common: rows for lines of the trace, threads side by side, texts and boxes in SVG."""
from __future__ import annotations

from dataclasses import dataclass, field
from html import escape
from typing import Iterator, Optional

from .cycle import Event, Transaction
from .names import plain, shown
from .report import Finding
from .trace import Seen
from .words import Arrow, action_of, arrows_of

CHARACTER = 7.3  # the width of a character
WIDEST = 26  # columns of a text in a picture


@dataclass
class Row:
    """A line of the trace in the picture; `y` is where its event has its dot."""

    line: int
    event: Optional[Event] = None
    begins: Optional[Transaction] = None
    ends: list[Transaction] = field(default_factory=list)
    top: float = 0
    y: float = 0
    bottom: float = 0

    @property
    def action(self) -> str:
        if self.event:
            return action_of(self.event, plain)
        if self.begins:
            return "begin" if self.begins.label is None else f"begin({plain(self.begins.label)})"
        return "end"


@dataclass
class Sheet:
    """The rows of a picture, its threads from left to right, and its conflicts."""

    finding: Finding
    seen: Seen
    rows: dict[int, Row] = field(default_factory=dict)
    threads: dict[bytes, int] = field(default_factory=dict)
    arrows: list[Arrow] = field(default_factory=list)

    def __post_init__(self) -> None:
        for event in self.finding.cycle:
            self._row(event.line).event = event
        for one in self.finding.transactions.values():
            self.threads.setdefault(one.thread, len(self.threads))
            if one.is_block:
                self._row(one.first).begins = one
            if one.end is not None:
                self._row(one.end).ends.append(one)
        self.rows = dict(sorted(self.rows.items()))
        self.arrows = arrows_of(self.finding.cycle)

    def _row(self, line: int) -> Row:
        return self.rows.setdefault(line, Row(line))

    def gaps(self) -> Iterator[tuple[Row, Row]]:
        """The rows between which lines are folded."""
        rows = list(self.rows.values())
        yield from ((above, below) for above, below in zip(rows, rows[1:]) if below.line - above.line > 1)

    def gutter(self) -> float:
        """How much room the numbers of lines take at the left."""
        gaps = [len(folded(above, below)) for above, below in self.gaps()]
        return max([4] + [len(str(row.line)) for row in self.rows.values()] + gaps) * CHARACTER + 14

    def title(self, event: Event) -> str:
        """The whole event, for who points at it."""
        place = self.seen.location_of(event.line)
        return f"line {event.line}: {plain(event.thread)} {action_of(event, plain)}" + (f", {shown(place)}" if place else "")

    def number(self, row: Row, x: float) -> str:
        kind = "line closing" if row.line == self.finding.counts["line"] else "line"
        return text_at(x, row.y + 4, kind, str(row.line), "end")

    def box(self, one: Transaction, left: float, right: float) -> str:
        """The box of a transaction: closed where it ended, else with a dashed foot."""
        top, corner = self.rows[one.first].top, min(9.0, (right - left) / 2)
        kind = "box blamed" if one.first == self.finding.counts["begun"] else "box"
        up, down = f"{-corner:.1f}", f"{corner:.1f}"
        head = f"V{top + corner:.1f}q0 {up} {down} {up}H{right - corner:.1f}q{down} 0 {down} {down}"
        if one.end is not None or not one.is_block:
            low = self.rows[one.end or one.first].bottom - corner
            foot = f"q0 {down} {up} {down}H{left + corner:.1f}q{up} 0 {up} {up}z"
            return f'<path class="{kind}" d="M{left:.1f} {low:.1f}{head}V{low:.1f}{foot}"/>'
        low = self.rows[max(self.rows)].bottom + 8
        sides = f'<path class="{kind}" d="M{left:.1f} {low:.1f}{head}V{low:.1f}"/>'
        return f'{sides}<path class="foot" d="M{left:.1f} {low:.1f}H{right:.1f}"/>'

    def svg(self, width: float, height: float, parts: list[str]) -> str:
        label = (
            f"Picture of a cycle of {len(self.arrows)} conflicts between {len(self.finding.transactions)} transactions of "
            f"{len(self.threads)} threads, which the sentences describe"
        )
        return (
            f'<svg role="img" aria-label="{label}" viewBox="0 0 {width:.0f} {height:.0f}" width="{width:.0f}" '
            f'height="{height:.0f}" style="min-width:{width * 0.8:.0f}px">{"".join(parts)}</svg>'
        )


def folded(above: Row, below: Row) -> str:
    return f"\u22ee {below.line - above.line - 1:,}"


def text_at(x: float, y: float, kind: str, text: str, anchor: str = "start", title: str = "") -> str:
    """A text, with a title for who points at it, where that says more."""
    title = f"<title>{escape(title)}</title>" if title not in ("", text) else ""
    return f'<text class="{kind}" x="{x:.0f}" y="{y:.0f}" text-anchor="{anchor}">{title}{escape(text)}</text>'
