"""The findings as text, and as JSON."""
from __future__ import annotations

from typing import TYPE_CHECKING

from .answer import Answer, Finding
from .label_file import LabelFile
from .messages import say, write, write_json
from .names import Json, bytes_of, counted, json_of, printable, quoted, shown
from .progress import Progress

if TYPE_CHECKING:
    from .refinement import Refinement


class Output:
    """Writes what is found as text, and the labels to a file if there is one."""

    def __init__(self, file: LabelFile, progress: Progress) -> None:
        self.file, self.progress, self.number = file, progress, 0

    def finding(self, finding: Finding) -> None:
        self.number += 1
        self.progress.clear()
        self.show(finding)
        self.file.add(finding)

    def show(self, finding: Finding) -> None:
        inner, *around = finding.labels
        head = inner + f", and {counted(len(around), 'frame')} around it".encode() * bool(around)
        write(b"\n".join([head, b"  " + finding.answers[-1].text, *(b"    " + label for label in around)]))

    def left(self, answer: Answer) -> None:
        write(answer.text)

    def unneeded(self, line: int, label: bytes, why: str) -> None:
        write(shown(self.file.path) + b":%d: " % line + label + b": " + why.encode())

    def end(self, refined: Refinement, is_checked: bool) -> None:
        """The options that leave out what was found."""
        if not refined.found or is_checked:
            return
        words, option = self.file.words(refined), refined.labels.option.decode()
        if words is not None:
            write(b" ".join(quoted(word) for word in words))
        elif refined.labels.is_only:
            say(f"{option} can't have these labels: remove those that were found from the file of --only-from")
        else:
            say(f"{option} can't have these labels: write them to a file by -o FILE, for --except-from FILE")


class JsonOutput(Output):
    """Writes an object for each finding, one for each trace, and a last one."""

    def __init__(self, file: LabelFile, progress: Progress) -> None:
        super().__init__(file, progress)
        self.lines: list[Json] = []

    def show(self, finding: Finding) -> None:
        last = finding.answers[-1]
        frames = [
            {"label": json_of(it.label), "begun": it.block[1], "blocks": it.trace.blocks_with(it.label)}
            for it in reversed(finding.answers)
        ]
        write_json({"finding": self.number, "frames": frames, "violation": last.report})

    def left(self, answer: Answer) -> None:
        write_json(answer.report)

    def unneeded(self, line: int, label: bytes, why: str) -> None:
        self.lines.append({"line": line, "label": json_of(label), "reason": why})
        say(f"{shown(self.file.path).decode()}:{line}: {printable(label).decode()}: {why}")

    def end(self, refined: Refinement, is_checked: bool) -> None:
        summaries = [answer.summary for answer in refined.left]
        counts = {key: sum(it[key] for it in summaries) for key in ("traces", "serializable", "open", "violations", "faults")}
        told = {key: value for key, value in summaries[0].items() if key in ("version", "order", "explain", "limits", "end")}
        labels = {refined.labels.option[2:].decode(): [json_of(label) for label in refined.labels]}
        unused = set.intersection(*(set(map(bytes_of, it.get("unused", ()))) for it in summaries))
        lists = {"unused": [json_of(label) for label in refined.labels if label in unused], "notes": notes_of(refined)}
        lists["unneeded"] = self.lines
        write_json({"findings": self.number, **counts, **told, **labels, **{key: it for key, it in lists.items() if it}})


def notes_of(refined: Refinement) -> list[Json]:
    """The program's notes, and why violations remain."""
    told = [{**note, "source": it.report["source"]} for it in refined.left for note in it.summary.get("notes", ())]
    return told + [{"source": it.report["source"], "note": it.refusal} for it in refined.left if it.refusal]
