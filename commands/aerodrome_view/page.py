"""The command aerodrome-page: a report as one HTML file that runs and loads nothing."""
from __future__ import annotations

import shutil
from collections import Counter
from dataclasses import dataclass, field
from pathlib import Path
from typing import IO

from . import found, words
from .article import article, seen_of
from .command import Asked, run, unnamed
from .markup import MOST_TEXT, bare, code
from .report import FAULTS, FINDINGS, Finding, Options, Report, Tally
from .sources import Sources
from .trace import Seen, look
from .words import counted

USAGE = """Makes a web page of a report: one HTML file, with a picture of the cycle of each violation.

  aerodrome-page [OPTION..] [--] [REPORT]

REPORT is the output of `aerodrome --format json --explain` or of `aerodrome-refine --format json`: a file or a pipe. Without
REPORT, or if it is -, standard input is read. REPORT may contain several reports, one after another. For places in the code, and
for the lines around the events of a cycle, the traces are read too.

  -o, --output FILE   write to FILE, not to standard output
  --folder DIR        the names of traces are relative to DIR
  --root DIR          show source lines from the files below DIR
  --no-traces         don't read the traces: use this if you don't know who made the report
  --context N         show N lines of the trace around each event (2)
  --pictures N        draw the first N violations (200)
  --rows N            list the first N serializable traces (2000)
  -h, --help          print this help

The exit status:
  0  the page was written; also after --help
  3  the command line was refused, or REPORT can't be read or is incomplete
  4  memory ran out, or the page or a temporary file couldn't be written
If the status is 3 or 4, standard error has the reason. If it is 3, no page is written.
"""
OPTIONS = ("--context", "--pictures", "--rows")
KIND_OF = {"serializable": "serializables", "open": "opens", "violation": "violations", **dict.fromkeys(FAULTS, "faults")}
TILES = (  # the counts at the head: their members of the summary, the rows that each shows, and what stands under it
    ("traces", "all", "traces"),
    ("violations", "violations", "with a violation"),
    ("faults", "faults", "with a fault"),
    ("open", "opens", "with open blocks"),
    ("serializable", "serializables", "serializable"),
)
FEW = 40  # traces of which all are shown at first
MOST_BLAMED = 10  # blocks of which is told how often they are blamed
MOST_FAULTY = 200  # bytes of a faulty line
POLICY = "default-src 'none'; style-src 'unsafe-inline'; base-uri 'none'; form-action 'none'"
HEADS = "".join(
    f'<marker id="head-{kind}" viewBox="0 0 8 8" refX="4" refY="4" markerWidth="9" markerHeight="9" '
    f'markerUnits="userSpaceOnUse" orient="auto"><path class="head {kind}" d="M0 0L8 4L0 8z" /></marker>'
    for kind in words.KINDS
)
FOOTER = (
    "The numbers in a picture are the numbers of the sentences. A box is a block, from its first line to its end; a dashed "
    "foot means that the block hadn't ended yet. Lines that aren't part of the cycle are folded."
)


@dataclass
class Page:
    """The parts of a page while the report comes: they are put together once its counts are known."""

    asked: Asked
    rows: IO[str]
    articles: IO[str]
    sources: Sources
    report: Report
    found: IO[str]
    labels: list[str] = field(default_factory=list)
    pictures: int = 0
    listed: int = 0
    blamed: Counter[bytes] = field(default_factory=Counter)

    def add(self, finding: Finding, options: Options) -> None:
        if finding.frames:
            self.add_found(finding, options)
            return
        if finding.label is not None:
            self.blamed[finding.label] += 1
        if finding.verdict == "serializable":
            if self.listed == self.asked.rows:
                return
            self.listed += 1
        says = words.sentence(finding, options, code, lambda note: bare(note, MOST_FAULTY))
        if finding.verdict == "violation":
            says += self.picture(finding, options, seen_of(finding, self.asked))
        source = bare(finding.source, MOST_TEXT)
        self.rows.write(row(KIND_OF[finding.verdict], source, finding.verdict, says + self.fault(finding)))

    def add_found(self, finding: Finding, options: Options) -> None:
        """Adds a block that aerodrome-refine left out."""
        seen = seen_of(finding, self.asked)
        self.found.write(found.row(finding, seen, self.picture(finding, options, seen)))
        self.labels += found.lines_of(finding)

    def picture(self, finding: Finding, options: Options, seen: Seen) -> str:
        """Writes the picture of a violation, if there aren't too many; answers the link to it."""
        if self.pictures == self.asked.pictures:
            return ""
        self.pictures += 1
        self.articles.write(article(finding, self.pictures, options, seen, self.sources))
        return f' <a href="#v{self.pictures}">Why<span class="hidden"> in {bare(finding.source)}</span></a>'

    def fault(self, finding: Finding) -> str:
        """The faulty line, if there is one."""
        if not finding.fault or self.asked.no_traces:
            return ""
        line = look(finding, self.asked.folder).lines.get(finding.counts["line"])
        return f"<br /><code>{bare(line[:MOST_FAULTY], MOST_FAULTY)}</code>" if line else ""

    def unused(self) -> str:
        """The labels that are perhaps mistyped, if there are any."""
        labels = self.report.unused()
        return f"<p>{words.unused(labels, code)}</p>\n" if labels else ""

    def write(self, out: IO[str]) -> None:
        tally, title, style = self.report.tally, headline(self.report.tally), (Path(__file__).parent / "page.css").read_text("utf-8")
        out.write(
            f'<!DOCTYPE html>\n<html lang="en">\n<head>\n<meta charset="utf-8" />\n'
            f'<meta http-equiv="Content-Security-Policy" content="{POLICY}" />\n'
            f'<meta name="viewport" content="width=device-width, initial-scale=1" />\n'
            f"<title>{title} - aerodrome</title>\n<style>\n{style}</style>\n</head>\n<body>\n"
            f'<a class="skip" href="#traces">To the traces</a>\n'
            f'<svg class="heads" aria-hidden="true"><defs>{HEADS}</defs></svg>\n'
            f'<header>\n<h1>{title}</h1>\n<p class="dim">Does each atomic block behave as if it had run alone? '
            f"This is what <code>aerodrome</code> found.</p>\n</header>\n<main>\n"
        )
        self.write_found(out)
        out.write(
            f"{tiles(tally)}{self.unused()}{blames(self.blamed)}"
            '<table class="traces" id="traces"><caption>Traces</caption><thead><tr><th scope="col">Trace</th>'
            '<th scope="col">Verdict</th><th scope="col">What it means</th></tr></thead>\n<tbody>\n'
        )
        pour(self.rows, out)
        left_out = tally.of["serializable"] - self.listed
        if left_out:
            further = counted(left_out, "more trace")
            out.write(row("serializables", further, "serializable", "Not listed here (--rows)."))
        out.write("</tbody></table>\n")
        pour(self.articles, out)
        out.write(found.listed("\n".join(self.labels) + "\n") if self.labels else "")
        without = tally.of["violations"] + tally.of[FINDINGS] - self.pictures
        if without:
            are = "is" if without == 1 else "are"
            out.write(f"<p>{counted(without, 'more violation')} {are} only in the table (--pictures).</p>\n")
        out.write(f"</main>\n<footer>{FOOTER}</footer>\n</body>\n</html>\n")

    def write_found(self, out: IO[str]) -> None:
        if self.labels:
            out.write(found.head())
            pour(self.found, out)
            told = 'The <a href="#labels">labels of these blocks</a> are left out in what follows.'
            out.write(f"</tbody></table>\n<p>{told}</p>\n")


def pour(part: IO[str], out: IO[str]) -> None:
    part.seek(0)
    shutil.copyfileobj(part, out)


def row(kind: str, source: str, verdict: str, says: str) -> str:
    return f'<tr class="{kind}"><th scope="row">{source}</th><td class="verdict">{verdict}</td><td>{says}</td></tr>\n'


def headline(tally: Tally) -> str:
    of, traces = tally.of, counted(tally.of["traces"], "trace")
    if of[FINDINGS]:
        return f"{counted(of[FINDINGS], 'block')} {'isn' if of[FINDINGS] == 1 else 'aren'}'t atomic"
    if of["violations"] == of["traces"] == 1:
        return "The trace has a violation"
    if of["violations"]:
        return f"{of['violations']:,} of {traces} {'has' if of['violations'] == 1 else 'have'} a violation"
    if of["faults"]:
        return f"No violation, but {of['faults']:,} of {traces} couldn't be judged"
    if of["open"]:
        return f"No violation found, but {of['open']:,} of {traces} {'has' if of['open'] == 1 else 'have'} open blocks"
    return f"No violation: {traces}, all serializable" if of["traces"] else "No trace was judged"


def tiles(tally: Tally) -> str:
    """The counts, each to choose which traces the table shows: of many, those with the worst verdict at first."""
    worst = next((kind for member, kind, _ in TILES[1:] if tally.of[member]), "all")
    first = worst if tally.of["traces"] > FEW else "all"
    made = ""
    for member, kind, what in TILES:
        checked = ' checked="checked"' if kind == first else ""
        made += (
            f'<label class="tile {kind}{"" if tally.of[member] else " none"}">'
            f'<input type="radio" name="show" id="show-{kind}"{checked} /><b>{tally.of[member]:,}</b>'
            f" <span>{what[:-1] if what == 'traces' and tally.of[member] == 1 else what}</span></label>"
        )
    return f'<fieldset><legend class="hidden">Which traces the table shows</legend>{made}</fieldset>\n'


def blames(labels: Counter[bytes]) -> str:
    """Which blocks are blamed most, where one is more than once."""
    if max(labels.values(), default=0) < 2:
        return ""
    rows = "".join(
        f'<tr><th scope="row">{code(label)}</th><td class="number">{counted(count, "trace")}</td></tr>'
        for label, count in labels.most_common(MOST_BLAMED)
    )
    left = len(labels) - MOST_BLAMED
    more = f'<p class="dim">and {counted(left, "more block")}</p>' if left > 0 else ""
    return f'<table class="blames"><caption>Blocks that violations blame</caption><tbody>{rows}</tbody></table>{more}\n'


def make(asked: Asked, report: Report, whole: IO[str]) -> None:
    with unnamed() as rows, unnamed() as articles, unnamed() as blocks:
        page = Page(asked, rows, articles, Sources(asked.root), report, blocks)
        for finding, options in report.findings():
            page.add(finding, options)
        page.write(whole)


def main(given: list[str]) -> int:
    return run("aerodrome-page", USAGE, given, OPTIONS, make)
