"""What the command line asks for."""
from __future__ import annotations

import re
from dataclasses import dataclass, field
from typing import Optional

from .files import is_same, labels_in
from .labels import MOST_LABELS, Labels
from .messages import Ended, write
from .names import shown

USAGE = """Lists the blocks that violations blame: leaves out the blocks with the label of a blamed block, and judges again, until there is
no violation any more.

  aerodrome-refine [OPTION..] [--] TRACE..

Each TRACE is a file or a pipe, or - for standard input. Data from a pipe is kept until the end. A label that is left out for one
TRACE is left out for all. Every word after -- is a TRACE. If blocks are nested, the outer ones are blamed first at the same event:
they are one finding, which names the innermost of them.

  --except LABEL       leave out blocks with this label from the start
  --except-from FILE   leave out blocks with the labels of FILE from the start: one label a line, # begins a comment
  --only LABEL         start with only the blocks that have these labels; a label is then left out by removing it from them
  --only-from FILE     the same, with the labels of FILE
  --most N             stop after N findings
  --passes N           let N passes over the traces run at once (as many as there are processors). The result is the same
  --format FORM        text, or json: one object a line, for aerodrome-page and aerodrome-sarif
  -o, --output FILE    write the labels to FILE too, for --except-from, each below a comment with its violation
  --continue FILE      leave out the labels of FILE from the start, and append those that are found
  --check FILE         leave out the labels of FILE; return status 1 if another block is blamed, and print the lines of FILE that
                       are no longer needed
  --fail-unchecked     return status 1 instead of 0 if no block begins in any TRACE, or none with a label of --only. Blocks that are
                       left out by --except, --continue or --check count
  --progress           show a line about progress even if standard error isn't a terminal
  --quiet              show no progress
  -h, --help           print this help

Other options, such as --long, are passed on to the program: aerodrome, or the value of AERODROME in the environment. The output
has each finding, with its labels and its violation; then the program's report on each TRACE without these blocks; and then the
options that leave them out: --except with each label, --except-from FILE, or --only with each label that remains.

The exit status is the highest that the program returns for a TRACE without these blocks:
  0  no violation is left; also after --help
  1  a violation is left, because its block has no label, has the last label of --only, or has a label that neither a file nor an
     option can hold, because 65536 labels are left out already, or because of --most; or --check found another blamed block; or a
     TRACE has open blocks with --fail-open; or nothing was checked with --fail-unchecked
  2  a TRACE is malformed, ill-formed, broken or too large
  3  the command line or the FILE of an option was refused
  4  memory ran out, or the output or a temporary file couldn't be written
"""
NUMBERS = {b"--most": ("most", 1_000_000), b"--passes": ("passes", 64)}
PASSED_ON = (b"--workers", b"--piece")
NOT_TAKEN = (b"--label", b"--files0-from", b"--version", b"-V")
LISTS = {b"--except": "excepted", b"--only": "only", b"--except-from": "except_from", b"--only-from": "only_from"}
FILES = {b"-o": "output", b"--output": "output", b"--continue": "continued", b"--check": "checked"}


@dataclass
class Asked:
    """What the command line asks for."""

    traces: list[bytes] = field(default_factory=list)
    options: list[bytes] = field(default_factory=list)
    excepted: list[bytes] = field(default_factory=list)
    only: list[bytes] = field(default_factory=list)
    except_from: list[bytes] = field(default_factory=list)
    only_from: list[bytes] = field(default_factory=list)
    form: bytes = b"text"
    most: int = 0
    passes: int = 0
    output: bytes = b""
    continued: bytes = b""
    checked: bytes = b""
    fail_unchecked: bool = False
    progress: bool = False
    quiet: bool = False


def settle(words: list[bytes]) -> Asked:
    """What the command line asks for."""
    asked, left = Asked(), iter(words)
    for word in left:
        name, equals, value = word.partition(b"=")
        if word == b"--":
            asked.traces += left
        elif word in (b"-h", b"--help"):
            write(USAGE.rstrip().encode())
            raise Ended(0, "")
        elif name in NOT_TAKEN:
            raise Ended(3, f"{name.decode()} isn't accepted here")
        elif name in (*LISTS, *FILES, *NUMBERS, *PASSED_ON, b"--format"):
            set_value(asked, name, value if equals else next(left, None))
        elif word in (b"--progress", b"--quiet", b"--fail-unchecked"):
            setattr(asked, word[2:].decode().replace("-", "_"), True)
        elif word.startswith(b"-") and word != b"-":
            # (each pass stops, and none shows an order)
            asked.options += [word] if word not in (b"--stop", b"--order") else []
        else:
            asked.traces.append(word)
    checked(asked)
    return asked


def set_value(asked: Asked, name: bytes, value: Optional[bytes]) -> None:
    if value is None or (name in FILES and not value):
        raise Ended(3, f"{name.decode()} needs a value")
    if name in LISTS:
        getattr(asked, LISTS[name]).append(value)
    elif name in FILES:
        setattr(asked, FILES[name], value)
    elif name in PASSED_ON:
        asked.options.append(name + b"=" + value)
    elif name in NUMBERS:
        member, most = NUMBERS[name]
        if not re.fullmatch(rb"[1-9][0-9]{0,6}", value) or int(value) > most:
            raise Ended(3, f"{name.decode()} needs a number from 1 to {most}: {shown(value).decode()}")
        setattr(asked, member, int(value))
    elif value in (b"text", b"json"):
        asked.form = value
    else:
        raise Ended(3, f"--format needs text or json: {shown(value).decode()}")


def checked(asked: Asked) -> None:
    """Refuses what doesn't go together."""
    files = [it for it in (asked.output, asked.continued, asked.checked) if it]
    inputs = [*asked.traces, *asked.except_from, *asked.only_from]
    if not asked.traces:
        raise Ended(3, "no TRACE (see --help)")
    if asked.traces.count(b"-") > 1:
        raise Ended(3, "standard input is named more than once")
    if (asked.excepted or asked.except_from) and (asked.only or asked.only_from):
        raise Ended(3, "--except and --only can't be combined")
    if len(files) > 1:
        raise Ended(3, "-o, --continue and --check can't be combined")
    if files and (asked.only or asked.only_from):
        raise Ended(3, "-o, --continue and --check can't be combined with --only")
    if b"-" in (*asked.except_from, *asked.only_from, *files):
        raise Ended(3, "a file of labels can't be -")
    if any(shown(it) != it for it in (asked.output, asked.continued)):
        raise Ended(3, f"{shown(asked.output or asked.continued).decode()} isn't UTF-8, so the program can't open it")
    if asked.output and any(is_same(it, asked.output) for it in inputs):
        raise Ended(3, f"-o would overwrite {shown(asked.output).decode()}, which is read")


def labels_of(asked: Asked) -> Labels:
    """The labels from which the passes begin."""
    option = b"--only" if asked.only or asked.only_from else b"--except"
    paths = [*asked.except_from, *asked.only_from, *(it for it in (asked.continued, asked.checked) if it)]
    listed = tuple(dict.fromkeys(label for path in paths for _, label in labels_in(path)))
    if len(listed) + len(asked.excepted + asked.only) > MOST_LABELS:
        raise Ended(3, f"more than {MOST_LABELS} labels")
    return Labels(option, tuple(asked.excepted + asked.only), listed)
