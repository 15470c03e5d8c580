"""All on one violation: its picture, why no serial order is left, what to do, the events and the trace round them."""
from __future__ import annotations

from html import escape
from typing import Callable

from . import words
from .columns import columns
from .command import Asked
from .cycle import Event
from .lanes import lanes
from .markup import MOST_NAME, MOST_TEXT, bare, code
from .names import cut, is_text, readable, shown, word_of_shell
from .report import Finding, Options
from .sheet import Sheet
from .sources import Sources, place_of
from .trace import Seen, look, parts_of
from .words import Arrow, arrows_of, counted, roles_of

MOST_COLUMNS = 6  # threads that are columns of a picture
MOST_BESIDE = 740  # the width of a picture that leaves room beside it
MOST_STILL = 400  # the width of a picture that needn't be scrolled on a phone
MOST_ROWS = 60  # of a picture that needn't be scrolled
MOST_LINES = 400  # lines of a trace that are shown round one cycle, or so
MOST_OPEN = 40  # events of a cycle whose tables stand open
MOST_EXCERPTS = 10  # violations whose excerpts stand open
MOST_WORDS = 64  # labels of --except
MOST_SED = 12  # lines that are named one by one

Picture = Callable[[Sheet], tuple[str, float]]


def seen_of(finding: Finding, asked: Asked) -> Seen:
    """The lines of the trace that an article shows."""
    if asked.no_traces or not finding.cycle:
        return Seen(why_not="the traces weren't read")
    context = min(asked.context, max(0, MOST_LINES // len(finding.cycle) - 1) // 2)
    return look(finding, asked.folder, context)


def article(finding: Finding, number: int, options: Options, seen: Seen, sources: Sources) -> str:
    thread, begun, line = bare(finding.thread), finding.counts["begun"], finding.counts["line"]
    block = f"The block of {thread} from line {begun}"
    if finding.label is not None:
        block = f"{code(finding.label)} of {thread}"
    head = (
        f'<article id="v{number}" aria-labelledby="h{number}">\n<h2 id="h{number}">{block} <em>isn\'t atomic</em></h2>\n'
        f'<p class="dim">{bare(finding.source, MOST_TEXT)}: violation at line {line}: block of {thread} from line {begun}. '
        '<a href="#traces">To the traces</a></p>\n'
    )
    if not finding.cycle:
        return head + "<p>The report shows no cycle, because it was made without <code>--explain</code>.</p>\n</article>\n"
    head += f"<p>{around}</p>\n" if (around := words.around(finding, code)) else ""
    sheet = Sheet(finding, seen)
    picture: Picture = lanes if len(sheet.threads) > MOST_COLUMNS else columns
    drawn, width = picture(sheet)
    is_wide, is_tall = width > MOST_BESIDE, len(sheet.rows) > MOST_ROWS
    scrolls = f' tabindex="0" role="region" aria-label="Picture {number}"' if width > MOST_STILL or is_tall else ""
    kind = "scroll tall" if is_tall else "scroll"
    figure = f'<figure><div class="{kind}"{scrolls}>{drawn}</div><figcaption>{legend(sheet.arrows)}</figcaption></figure>\n'
    told, do = why(finding, sheet.arrows, is_wide or is_tall), advice(finding, sheet.arrows, options)
    parts = f"{figure}{told}{do}" if is_wide else f'{figure}<div class="why">{told}{do}</div>\n'
    body = f'<div class="{"wide" if is_wide else "beside"}">\n{parts}{events(finding, seen, sources)}</div>\n'
    return head + body + excerpt(finding, seen, number) + "</article>\n"


def legend(arrows: list[Arrow]) -> str:
    used = {words.KINDS[arrow.kind]: arrow.kind for arrow in arrows}
    kinds = "".join(f'<li class="{kind}">{what}</li>' for what, kind in used.items())
    return f'<ul class="legend"><li class="block">the block that isn\'t atomic</li>{kinds}</ul>'


def why(finding: Finding, arrows: list[Arrow], is_boxed: bool) -> str:
    """The conflicts in sentences, whose numbers are those of the picture. A box has room for a part of many sentences, and scrolls."""
    told = zip(arrows, words.reasons(finding, code))
    steps = "".join(f'<li class="{arrow.kind}">{reason}</li>\n' for arrow, reason in told)
    box = '<div class="box" tabindex="0" role="region" aria-label="Reasons">' if is_boxed else "<div>"
    detours = "".join(f"<p>{detour}</p>\n" for detour in words.detours(finding, code))
    return (
        f'<h3>Why no serial order is possible</h3>\n{box}<ol class="steps">\n{steps}</ol></div>\n'
        f"<p><strong>{words.conclusion(finding, code)}</strong></p>\n{detours}"
    )


def advice(finding: Finding, arrows: list[Arrow], options: Options) -> str:
    """What to do about the block, and how to see more of the trace."""
    begun, file = finding.counts["begun"], word_of_shell(finding.source)
    file = f"-- {file}" if file.startswith("-") and file != "-" else file
    at_home = {arrow.kind for arrow in arrows if begun in (arrow.before.first, arrow.after.first)}
    told = "<p>Hold one lock for the whole block.</p>\n"
    if {"fork", "join"} & at_home:
        told = "<p>The block starts threads, or waits for them. Such blocks are seldom meant to be atomic.</p>\n"
    if finding.frames:
        told += '<p>Or, if the block isn\'t meant to be atomic, keep its label in <a href="#labels">the list</a>.</p>\n'
    elif finding.label is None:
        told += "<p>The block has no label, so you can't leave it out. Log its begin as <code>begin(LABEL)</code> first.</p>\n"
    elif not is_text(finding.label):
        told += "<p>The label of the block isn't UTF-8, so no option can leave it out.</p>\n"
    else:
        told += without(finding.label, options, file)
    if finding.source != b"-":
        lines = sorted({event.line for event in finding.cycle})
        which = f"{min(begun, lines[0])},{lines[-1]}p"
        if len(lines) < MOST_SED:
            which = ";".join(f"{line}p" for line in lines)
        told += "<p>To print the whole lines of the cycle:</p>\n" + command(f"sed -n '{which}' {file}")
    return f"<h3>What to do</h3>\n{told}"


def without(label: bytes, options: Options, file: str) -> str:
    """How the file is judged again, as it was, but without the blocks of this label."""
    words_of = ["aerodrome"] + ["--long"] * options.is_long + ["--end"] * options.ends
    if options.only:
        kept = [option_of("--only", other) for other in options.only if other != label]
        if not kept:
            return "<p>This is the only label of <code>--only</code>. Without it no block would have to be atomic.</p>\n"
        told = "Or, if the block isn't meant to be atomic, omit its label from <code>--only</code>:"
        return f"<p>{told}</p>\n{command(' '.join([*words_of, *kept, file]))}"
    if len(options.excepted) >= MOST_WORDS:
        return "<p>Or, if the block isn't meant to be atomic, add its label to the file of <code>--except-from</code>.</p>\n"
    words_of += [option_of("--except", other) for other in (*options.excepted, label)]
    too = " too" if options.excepted else ""
    return f"<p>Or, if the block isn't meant to be atomic, leave it out{too}:</p>\n{command(' '.join([*words_of, file]))}"


def command(line: str) -> str:
    return f"<pre><code>{escape(line)}</code></pre>\n"


def option_of(name: str, label: bytes) -> str:
    return f"{name}={word_of_shell(label)}" if label.startswith(b"-") else f"{name} {word_of_shell(label)}"


def events(finding: Finding, seen: Seen, sources: Sources) -> str:
    """The events of the cycle, with their places in the code and the lines that stand there, where these are known."""
    roles = roles_of(arrows_of(finding.cycle))
    places = [place(event, seen, sources) for event in finding.cycle]
    rows = ""
    for event, told in zip(finding.cycle, places):
        rows += (
            f'<tr><td class="number">{event.line}</td><td class="number">{roles[event.line]}</td>'
            f"<td>{code(event.thread, MOST_TEXT)}</td><td>{action(event)}</td>"
            + (f"<td>{told}</td></tr>\n" if any(places) else "</tr>\n")
        )
    titles = ("Line", "Arrow", "Thread", "Event") + ("Place in the code",) * any(places)
    head = "".join(f'<th scope="col">{title}</th>' for title in titles)
    table = (
        '<table class="events"><caption>Events of the cycle</caption>'
        f"<thead><tr>{head}</tr></thead>\n<tbody>\n{rows}</tbody></table>\n"
    )
    if len(finding.cycle) > MOST_OPEN:
        table = f"<details><summary>{len(finding.cycle)} events</summary>\n{table}</details>\n"
    return f'<div class="cycle{" below" if any(places) else ""}">{table}</div>\n'


def action(event: Event) -> str:
    return f"<code>{words.action_of(event, lambda target: bare(readable(target), MOST_TEXT))}</code>"


def place(event: Event, seen: Seen, sources: Sources) -> str:
    """Where an event was in the code, and the line that stands there."""
    location = seen.location_of(event.line)
    if not location:
        return ""
    found = place_of(location)
    line = sources.line_of(found).replace(b"\t", b" ") if found else b""
    source = f'<br /><code class="source">{bare(line, MOST_TEXT)}</code>' if line else ""
    kind = ' class="place"' if len(location) <= MOST_NAME else ""
    return f"<code{kind}>{bare(location, MOST_TEXT)}</code>{source}"


def excerpt(finding: Finding, seen: Seen, number: int) -> str:
    """The lines of the trace round the events, with those between them folded."""
    if seen.why_not:
        return f'<p class="dim">No more of the trace is shown: {escape(seen.why_not)}.</p>\n'
    roles, threads = roles_of(arrows_of(finding.cycle)), {event.thread for event in finding.cycle}
    rows, above = "", 0
    for line, text in sorted(seen.lines.items()):
        if line - above > 1:
            between = counted(line - above - 1, "line")
            rows += f'<tr class="fold"><td class="at">\u22ee</td><td></td><td>{between}</td></tr>\n'
        parts, above = parts_of(text), line
        kind = "on" if line in roles else "" if parts and parts[0] in threads else "off"
        rows += (
            f'<tr class="{kind}"><td class="at">{line}</td><td class="role">{roles.get(line, "")}</td>'
            f"<td>{escape(cut(shown(text), MOST_TEXT))}</td></tr>\n"
        )
    opened = ' open="open"' if number <= MOST_EXCERPTS and len(finding.cycle) <= MOST_OPEN else ""
    return (
        f"<details{opened}><summary>The trace around these events</summary>\n"
        f'<table class="excerpt"><tbody>\n{rows}</tbody></table></details>\n'
    )
