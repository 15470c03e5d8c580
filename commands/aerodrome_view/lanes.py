"""The picture of a cycle through many threads: each is a narrow lane, and a row has its line, its event and its arrows' numbers
at the left."""
from __future__ import annotations

from .names import columns_of, cut, plain
from .sheet import CHARACTER, WIDEST, Row, Sheet, text_at
from .words import roles_of

MOST_THREAD = 18  # columns of a thread's name
ROW, GAP = 20, 8  # heights of a row, and of folded lines


def lanes(sheet: Sheet) -> tuple[str, float]:
    """The picture, and its width."""
    roles = roles_of(sheet.arrows)
    step = max(7.0, min(22.0, 520 / len(sheet.threads)))
    most = min(MOST_THREAD, max(columns_of(cut(plain(thread), MOST_THREAD)) for thread in sheet.threads))
    x_thread = sheet.gutter() + 6
    x_action = x_thread + (most + 1) * CHARACTER
    x_role = x_action + max(columns_of(cut(row.action, WIDEST)) for row in sheet.rows.values()) * CHARACTER
    x_role += 12 + max(map(len, roles.values())) * 6.8
    x_lane = x_role + 12
    middles = {thread: x_lane + step * (n + 0.5) for thread, n in sheet.threads.items()}
    height = _place_rows(sheet)
    half = step * 0.38
    transactions = sheet.finding.transactions.values()
    parts = [sheet.box(one, middles[one.thread] - half, middles[one.thread] + half) for one in transactions]
    for row in sheet.rows.values():
        thread, kind = _thread(row), "event" if row.event else "dim"
        title = sheet.title(row.event) if row.event else row.action
        parts += [
            f'<path class="guide" d="M{x_role + 6:.0f} {row.y:.0f}H{middles[thread] - half:.0f}"/>',
            sheet.number(row, x_thread - 14),
            text_at(x_thread, row.y + 4, kind, cut(plain(thread), most), title=plain(thread)),
            text_at(x_action, row.y + 4, kind, cut(row.action, WIDEST), title=title),
            text_at(x_role, row.y + 4, "roles", roles.get(row.line, ""), "end"),
        ]
    parts += _arrows(sheet, middles, min(4.0, step * 0.3))
    width = x_lane + step * len(sheet.threads) + 8
    return sheet.svg(width, height, parts), width


def _place_rows(sheet: Sheet) -> float:
    y, above = 4.0, 0
    for row in sheet.rows.values():
        y += GAP if above and row.line - above > 1 else 0
        row.top, row.y, row.bottom, above = y + 1, y + ROW / 2, y + ROW - 1, row.line
        y += ROW
    return y + 12


def _thread(row: Row) -> bytes:
    return (row.event or row.begins or row.ends[0]).thread


def _arrows(sheet: Sheet, middles: dict[bytes, float], dot: float) -> list[str]:
    out = []
    for arrow in sheet.arrows:
        x1, y1 = middles[arrow.before.thread], sheet.rows[arrow.before.line].y
        x2, y2 = middles[arrow.after.thread], sheet.rows[arrow.after.line].y - 4
        bend = min(30.0, (y2 - y1) / 2)
        curve = f"M{x1:.1f} {y1:.1f}C{x1:.1f} {y1 + bend:.1f} {x2:.1f} {y2 - bend:.1f} {x2:.1f} {y2:.1f}"
        out.append(
            f'<path class="arrow {arrow.kind}" marker-end="url(#head-{arrow.kind})" d="{curve}"/>'
            f'<circle class="dot {arrow.kind}" cx="{x1:.1f}" cy="{y1:.1f}" r="{dot:.1f}"/>'
        )
    return out
