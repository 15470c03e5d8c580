"""What aerodrome-refine found, in a page: a table of the blamed blocks, and their labels as a file for --except-from."""
from __future__ import annotations

from html import escape
from typing import Iterator

from . import words
from .markup import MOST_TEXT, bare, code
from .names import is_text, shown, word_of_shell
from .report import Finding
from .trace import Seen
from .words import counted

TITLES = ("Block", "Trace", "Place in the code", "The cycle also goes through", "Blocks")


def row(finding: Finding, seen: Seen, link: str) -> str:
    """A row of the table: the block, its trace, its place, the other blocks of the cycle, and how many blocks have its label."""
    inner, outer, counts = finding.frames[0], finding.frames[1:], finding.counts
    around = f', and {counted(len(outer), "frame")} around it' if outer else ""
    place = seen.location_of(inner.begun)
    cells = (
        f"{bare(finding.source, MOST_TEXT)}, line {counts['line']}: block of {bare(finding.thread)} from line {counts['begun']}",
        f"<code>{bare(place, MOST_TEXT)}</code>" if place else "",
        words.through(finding, code) or "no other block",
        f"{inner.blocks:,}",
    )
    told = "".join(f"<td>{cell}</td>" for cell in cells)
    return f'<tr><th scope="row">{code(inner.label, MOST_TEXT)}{around}{link}</th>{told}</tr>\n'


def head() -> str:
    titles = "".join(f'<th scope="col">{title}</th>' for title in TITLES)
    return f'<table class="found" id="found"><caption>Blocks that aren\'t atomic</caption><thead><tr>{titles}</tr></thead>\n<tbody>\n'


def lines_of(finding: Finding) -> Iterator[str]:
    """The lines of a file for --except-from: a comment, and the labels. Such a file drops blanks around a label."""
    counts = finding.counts
    yield f"# {shown(finding.source)}: violation at line {counts['line']}: block of {shown(finding.thread)} from line {counts['begun']}"
    for frame in finding.frames:
        label = frame.label
        if not is_text(label) or shown(label) != label.decode():
            yield f"# this label has bytes that a page can't show, so use aerodrome-refine -o: {shown(label)}"
        elif label != label.strip(b" \t") or label.startswith(b"#"):
            yield f"# this label needs --except: {word_of_shell(label)}"
        else:
            yield label.decode()


def listed(lines: str) -> str:
    """The list of labels."""
    return (
        '<section id="labels">\n<h2>The labels of these blocks</h2>\n<p>Save these lines as a file, and leave these blocks out by '
        "<code>aerodrome --except-from FILE</code>. Remove the label of a block that is meant to be atomic. "
        '<a href="#found">To the blocks</a></p>\n'
        f"<pre>{escape(lines)}</pre>\n</section>\n"
    )
