"""The command aerodrome-refine: lists the blocks that violations blame."""
from __future__ import annotations

import os
import signal
import sys

from .asked import Asked, labels_of, settle
from .files import labels_in
from .label_file import LabelFile
from .labels import Labels
from .messages import Ended, say, tell
from .names import counted, printable, shown
from .output import JsonOutput, Output
from .passes import ENDING, Passes
from .progress import Progress
from .refinement import Needs, Refinement
from .trace import Trace

MOST_TOLD = 10  # labels in a line on standard error


def check(asked: Asked, refined: Refinement) -> int:
    """The status of --check. Prints which lines of the file are no longer needed."""
    name = shown(asked.checked).decode()
    if refined.found:
        told = ", ".join(printable(label).decode() for label in refined.found[:MOST_TOLD])
        more = f" and {len(refined.found) - MOST_TOLD} more" if len(refined.found) > MOST_TOLD else ""
        say(f"{counted(len(refined.found), 'blamed label')} missing in {name}: {told}{more}")
    if any(it.verdict not in ("serializable", "open") for it in refined.left):
        say(f"a violation or a fault is left, so it isn't known which lines of {name} are still needed")
        return 1
    needs, lines = Needs(refined), labels_in(asked.checked)
    later, known = list(dict.fromkeys(label for _, label in lines)), set()
    for line, label in lines:
        later = later[later.index(label) + 1 :] if label in later else later
        why = "an earlier line has this label" if label in known else needs.reason_against(label, later)
        known.add(label)
        refined.passes.progress.clear()
        if why:
            refined.output.unneeded(line, label, why)
    return 1 if refined.found else 0


def judge(asked: Asked, passes: Passes, labels: Labels) -> int:
    file = LabelFile(asked)
    output = (JsonOutput if asked.form == b"json" else Output)(file, passes.progress)
    refined = Refinement(passes, labels, asked.most, output)
    refined.refine()
    passes.progress.clear()
    file.end()
    for answer in refined.left:
        output.left(answer)
        if answer.refusal:
            say(answer.refusal)
        if answer.cut:
            say(f"{printable(answer.trace.name).decode()}: the log was cut ({answer.cut}), so this is only on its lines before that")
        tell(answer.notes)
    status = check(asked, refined) if asked.checked else 0
    output.end(refined, bool(asked.checked))
    if asked.fail_unchecked and not refined.has_block(labels):
        say("no block was checked in any TRACE")
        status = max(status, 1)
    return max(status, *(answer.status for answer in refined.left))


def main(words: list[bytes]) -> int:
    passes = None
    try:
        if sys.stdout is None:
            raise Ended(4, "write failed")
        asked = settle(words)
        labels, traces = labels_of(asked), [Trace(word) for word in asked.traces]
        # If labels were given, a pass reads on behind its violation, to find those with which no block begins.
        options = asked.options if [*labels] else [b"--stop", *asked.options]
        passes = Passes(traces, options, asked.passes or len(os.sched_getaffinity(0)), Progress(asked))
        return judge(asked, passes, labels)
    except Ended as end:
        status, why = end.args
        if passes:
            passes.progress.clear()
        if why:
            say(why)
        return status
    finally:
        signal.pthread_sigmask(signal.SIG_BLOCK, ENDING)
        if passes:
            passes.progress.clear()
            passes.end()


def run() -> int:
    """The status of the command that this process is. It ends its passes if a signal ends it."""
    for number in ENDING:
        if signal.getsignal(number) is not signal.SIG_IGN:
            signal.signal(number, lambda number, _: sys.exit(128 + number))
    return main([os.fsencode(word) for word in sys.argv[1:]])
