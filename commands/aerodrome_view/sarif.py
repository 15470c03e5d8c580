"""The command aerodrome-sarif: a report as a SARIF 2.1.0 log, for code scanning and for the viewers of editors."""
from __future__ import annotations

import hashlib
import json
from typing import IO, Any
from urllib.parse import quote

from . import words
from .command import Asked, run, say
from .flow import Flow, Places, message
from .names import plain
from .report import Finding, Options, Report
from .sources import Sources
from .trace import Seen, look

NAME = "aerodrome-sarif"
USAGE = """Makes a SARIF 2.1.0 log of a report, for code scanning services and for editors.

  aerodrome-sarif [OPTION..] [--] [REPORT]

REPORT is the output of `aerodrome --format json --explain` or of `aerodrome-refine --format json`: a file or a pipe. Without
REPORT, or if it is -, standard input is read. REPORT may contain several reports, one after another. The log has the first 25,000
results. The location of a violation is the place in the code where the block begins, if the trace has places of the form
FILE:LINE, and otherwise a line of the trace. For this the traces are read too.

  -o, --output FILE   write to FILE, not to standard output
  --folder DIR        the names of traces are relative to DIR
  --root DIR          give files below DIR names relative to DIR
  --no-traces         don't read the traces: use this if you don't know who made the report
  -h, --help          print this help

The exit status:
  0  the log was written; also after --help
  3  the command line was refused, or REPORT can't be read or is incomplete
  4  memory ran out, or the log or a temporary file couldn't be written
If the status is 3 or 4, standard error has the reason. If it is 3, no log is written.
"""
Json = dict[str, Any]
RULES = {  # by verdict, or by the word of rule_of: the rule's name, its level, what it says, and what to do
    "violation": (
        "NotAtomic",
        "error",
        "A block isn't atomic: no serial order of the blocks keeps the conflicting events of the trace in their order.",
        "Hold one lock for the whole block. If the block isn't meant to be atomic, leave it out with aerodrome --except LABEL.",
    ),
    "malformed": ("Malformed", "error", "A line of the trace is neither blank nor an event.", "Correct the logger that wrote the trace."),
    "ill-formed": (
        "IllFormed",
        "error",
        "An event is impossible after the events before it, for example a release of a lock that isn't held.",
        "Log the events in the order in which they happened, and give two threads or locks different names.",
    ),
    "broken": ("Broken", "error", "The trace couldn't be opened or read.", "See the reason in the message of the result."),
    "too large": ("TooLarge", "error", "The trace has more than 2^30 bytes.", "Judge the trace with aerodrome --long."),
    "open": (
        "OpenBlocks",
        "note",
        "No violation was found, but blocks have no end. A cycle that goes back in time in two or more of them may be hidden.",
        "Log an end on each way out of a block.",
    ),
    "unchecked": (
        "NothingChecked",
        "note",
        "The trace has no block to check, so its verdict means nothing.",
        "Log where blocks begin and end, or leave out fewer of them.",
    ),
    "cut": (
        "LogCut",
        "warning",
        "The log ends early, so the verdict is only on its first lines.",
        "Remove the reason that the result names, and log the program again.",
    ),
}
VERDICTS = list(RULES)
MOST_REASONS = 20  # in a message
MOST_RESULTS = 25_000  # in a log: code hosts take no more


def driver(version: str) -> Json:
    rules = [
        {
            "id": verdict.replace(" ", "-"),
            "name": name,
            "shortDescription": message(says),
            "fullDescription": message(says),
            "help": message(do),
            "defaultConfiguration": {"level": level},
        }
        for verdict, (name, level, says, do) in RULES.items()
    ]
    return {"driver": {"name": "aerodrome", **({"version": version} if version else {}), "rules": rules}}


def rule_of(finding: Finding) -> str:
    """The rule: the verdict, or another one if a note says that nothing was checked, or an open block that the log was cut."""
    if words.why_cut(finding):
        return "cut"
    return "unchecked" if finding.verdict == "serializable" and finding.note else finding.verdict


def result_of(finding: Finding, options: Options, asked: Asked, sources: Sources) -> Json:
    rule, seen, line = rule_of(finding), Seen(), finding.counts.get("line", 0)
    if line and not asked.no_traces:
        seen = look(finding, asked.folder)
    places = Places(finding, seen, sources, asked.folder)
    result: Json = {
        "ruleId": rule.replace(" ", "-"),
        "ruleIndex": VERDICTS.index(rule),
        "level": RULES[rule][1],
        "message": message(told_of(finding, options)),
        "locations": [places.in_trace(line)],
        "partialFingerprints": {"cycle/v1": fingerprint(finding, seen)},
    }
    source = places.in_source(finding.counts.get("begun", 0)) or places.in_source(line)
    if source:
        result["locations"] = [source]
        result["relatedLocations"] = [{"id": 1, **places.in_trace(line), "message": message("the trace")}]
    if finding.label is not None:
        result["locations"][0]["logicalLocations"] = [{"name": plain(finding.label), "kind": "function"}]
    if finding.cycle:
        result["codeFlows"] = [{"threadFlows": Flow(finding, places).threads()}]
    return result


def told_of(finding: Finding, options: Options) -> str:
    """The finding, with its reasons, up to twenty."""
    told = [words.sentence(finding, options, plain), *filter(None, [words.around(finding, plain)])]
    if finding.cycle:
        reasons = list(words.reasons(finding, plain))
        left = len(reasons) - MOST_REASONS
        told += reasons[:MOST_REASONS] + [f"And {words.counted(left, 'more conflict')}."] * (left > 0)
        told += [*words.detours(finding, plain), words.conclusion(finding, plain)]
    return " ".join(told)


def fingerprint(finding: Finding, seen: Seen) -> str:
    """A hash of what stays the same in each run: the label, and each operation with its place in the code or else its target."""
    of = hashlib.sha256(repr((finding.verdict, finding.fault, finding.label)).encode())
    for event in finding.cycle:
        of.update(repr((event.op, seen.location_of(event.line) or event.target)).encode())
    return of.hexdigest()


def make(asked: Asked, report: Report, whole: IO[str]) -> None:
    sources, version = Sources(asked.root), report.options[-1].version
    whole.write('{"$schema":"https://json.schemastore.org/sarif-2.1.0.json","version":"2.1.0","runs":[{"tool":')
    whole.write(json.dumps(driver(version)))
    if asked.root:
        whole.write(',"originalUriBaseIds":' + json.dumps({"%SRCROOT%": {"uri": f"file://{quote(sources.root.rstrip(b'/'))}/"}}))
    whole.write(',"columnKind":"unicodeCodePoints","results":[')
    written = left_out = 0
    for finding, options in report.findings():
        if rule_of(finding) not in RULES:
            continue
        if written == MOST_RESULTS:
            left_out += 1
            continue
        whole.write(",\n" if written else "\n")
        whole.write(json.dumps(result_of(finding, options, asked, sources)))
        written += 1
    whole.write("\n]}]}\n")
    if left_out:
        say(NAME, f"{words.counted(left_out, 'result')} left out, because code hosts accept at most {MOST_RESULTS:,} in a log", 0)


def main(given: list[str]) -> int:
    return run(NAME, USAGE, given, (), make)
