"""The picture of a cycle through a few threads: each is a column, with the text of its events in the boxes of its blocks.

An arrow leaves the edge of a box at the height of its event, runs down a channel between two columns, and enters the edge of
the other box at the height of the other event. So it passes over no text: a row has that of one thread.
"""
from __future__ import annotations

from dataclasses import dataclass

from .names import columns_of, cut, plain
from .sheet import CHARACTER, WIDEST, Row, Sheet, folded, text_at
from .words import Arrow

HEAD, LINE, FOOT, GAP = 26, 26, 18, 18  # heights of a box's head, an event, a box's foot, folded lines
CHANNEL, TRACK = 44, 22  # widths of a channel with one track, and of each further one
RIGHT = 1  # the edges of a box: 0 is the left one


@dataclass
class Run:
    """How an arrow runs: the edges where it leaves and enters, the channel between, and its track there."""

    arrow: Arrow
    leaves: int
    enters: int
    channel: int
    track: int
    rises: float = 0  # how far off the heights of its events, where two arrows share an edge
    falls: float = 0


def columns(sheet: Sheet) -> tuple[str, float]:
    """The picture, and its width."""
    height = _place_rows(sheet)
    runs = _runs(sheet)
    edges, channels, width = _place_columns(sheet, runs)
    back: list[str] = []
    for thread, n in sheet.threads.items():
        middle = sum(edges[n]) / 2
        back.append(f'<path class="life" d="M{middle:.0f} 28V{height:.0f}"/>')
        back.append(text_at(middle, 18, "column", cut(plain(thread), WIDEST), "middle", plain(thread)))
    back += [sheet.box(one, *edges[sheet.threads[one.thread]]) for one in sheet.finding.transactions.values()]
    drawn = [_drawn(sheet, run, edges, channels) for run in runs]
    lines, marks = [line for line, _ in drawn], [mark for _, mark in drawn]  # so that no line crosses a number
    return sheet.svg(width, height + 4, back + _texts(sheet, runs, edges) + lines + marks), width


def _place_rows(sheet: Sheet) -> float:
    """Gives each row its place; answers where all ends."""
    y, above = 30.0, 0
    for row in sheet.rows.values():
        y += 8 + (GAP if above and row.line - above > 1 else 0)
        row.top, above = y, row.line
        y += HEAD if row.begins else 0
        row.y = y + LINE / 2 if row.event else y - 9 if row.begins else y + FOOT / 2
        y += LINE if row.event else 0 if row.begins else FOOT
        row.bottom = y
    return y + 18


def _runs(sheet: Sheet) -> list[Run]:
    """Each arrow on a track that is free where it runs down. Channel n lies before column n."""
    used: dict[int, list[float]] = {}
    runs = []
    for arrow in sorted(sheet.arrows, key=lambda arrow: arrow.before.line):
        start, end = sheet.threads[arrow.before.thread], sheet.threads[arrow.after.thread]
        rightwards = end >= start
        tracks = used.setdefault(start + rightwards, [])
        top, bottom = sheet.rows[arrow.before.line].y, sheet.rows[arrow.after.line].y
        track = next((n for n, until in enumerate(tracks) if until < top), len(tracks))
        tracks[track : track + 1] = [bottom + 12]
        runs.append(Run(arrow, int(rightwards), int(end <= start), start + rightwards, track))
    ways_in = {(run.arrow.after.line, run.enters): run for run in runs}
    for run in runs:
        other = ways_in.get((run.arrow.before.line, run.leaves))
        if other:
            run.rises, other.falls = 6, -6
    return runs


def _place_columns(sheet: Sheet, runs: list[Run]) -> tuple[list[tuple[float, float]], list[float], float]:
    """The edges of the columns, where the first track of each channel is, and the width of all."""
    texts = {thread: [plain(thread)] for thread in sheet.threads}
    for row in sheet.rows.values():
        if row.event:
            texts[row.event.thread].append(row.action)
        if row.begins:
            texts[row.begins.thread].append("block" if row.begins.label is None else plain(row.begins.label))
    x, edges, channels = sheet.gutter(), [], [0.0]
    for n, names in enumerate(texts.values(), 1):
        width = max(12, *(columns_of(cut(name, WIDEST)) for name in names)) * CHARACTER + 26
        edges.append((x, x + width))
        channels.append(x + width + TRACK)
        tracks = [run.track for run in runs if run.channel == n]
        x += width + (CHANNEL + TRACK * max(tracks) if tracks else 14)
    return edges, channels, x


def _texts(sheet: Sheet, runs: list[Run], edges: list[tuple[float, float]]) -> list[str]:
    x_line = edges[0][0] - 14
    out = [text_at(x_line, 18, "gap", "line", "end")]
    out += [sheet.number(row, x_line) for row in sheet.rows.values()]
    out += [text_at(x_line, (a.bottom + b.top) / 2 + 4, "gap", folded(a, b), "end") for a, b in sheet.gaps()]
    used = {(run.arrow.before.line, run.leaves) for run in runs} | {(run.arrow.after.line, run.enters) for run in runs}
    for row in sheet.rows.values():
        if row.begins:
            middle = sum(edges[sheet.threads[row.begins.thread]]) / 2
            label = row.begins.label
            kind, name = ("label none", "block") if label is None else ("label", plain(label))
            out.append(text_at(middle, row.top + 18, kind, cut(name, WIDEST), "middle", name))
        if row.event:
            out.append(
                _event(sheet, row, *edges[sheet.threads[row.event.thread]], (row.line, 0) in used, (row.line, 1) in used)
            )
        for one in [] if row.event else row.ends:
            middle = sum(edges[sheet.threads[one.thread]]) / 2
            out.append(text_at(middle, row.y + 3, "dim", "end", "middle"))
    return out


def _event(sheet: Sheet, row: Row, left: float, right: float, at_left: bool, at_right: bool) -> str:
    """The text of an event stands by the edge where its arrow is."""
    assert row.event is not None
    x, anchor = (left + 13, "start") if not at_right else ((left + right) / 2, "middle") if at_left else (right - 13, "end")
    return text_at(x, row.y + 4, "event", cut(row.action, WIDEST), anchor, sheet.title(row.event))


def _drawn(sheet: Sheet, run: Run, edges: list[tuple[float, float]], channels: list[float]) -> tuple[str, str]:
    """The line of an arrow, and its dot and number."""
    arrow = run.arrow
    x1, y1 = edges[sheet.threads[arrow.before.thread]][run.leaves], sheet.rows[arrow.before.line].y + run.rises
    x2, y2 = edges[sheet.threads[arrow.after.thread]][run.enters], sheet.rows[arrow.after.line].y + run.falls
    x2 += 7 if run.enters == RIGHT else -7  # the arrow's head
    down = channels[run.channel] + TRACK * run.track
    r1, r2 = max(-8.0, min(8.0, down - x1)), max(-8.0, min(8.0, x2 - down))
    path = f"M{x1:.0f} {y1:.0f}H{down - r1:.0f}q{r1:.0f} 0 {r1:.0f} 8V{y2 - 8:.0f}q0 8 {r2:.0f} 8H{x2:.0f}"
    middle = (y1 + y2) / 2
    line = f'<path class="halo" d="{path}"/><path class="arrow {arrow.kind}" marker-end="url(#head-{arrow.kind})" d="{path}"/>'
    mark = (
        f'<circle class="dot {arrow.kind}" cx="{x1:.0f}" cy="{y1:.0f}" r="4"/>'
        f'<circle class="badge {arrow.kind}" cx="{down:.0f}" cy="{middle:.0f}" r="9"/>'
        + text_at(down, middle + 4, "numeral", str(arrow.number), "middle")
    )
    return line, mark
