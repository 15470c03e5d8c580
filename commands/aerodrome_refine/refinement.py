"""What is found, one pass after the other, and which labels are still needed."""
from __future__ import annotations

import itertools
from typing import Iterator, Optional

from .answer import Answer, Finding
from .labels import Labels
from .names import bytes_of, counted
from .output import Output
from .passes import Passes


class Refinement:
    """What is found, one pass after the other: which labels are left out, and the answer on each trace that was judged by them."""

    def __init__(self, passes: Passes, labels: Labels, most: int, output: Output) -> None:
        self.passes, self.labels, self.most, self.output = passes, labels, most, output
        self.traces, self.found, self.findings = passes.traces, [], 0
        self.left: list[Optional[Answer]] = [None] * len(self.traces)
        self.by: list[Optional[Labels]] = [None] * len(self.traces)

    def refine(self) -> None:
        """Judges each trace until it has no violation any more, and again if labels are left out for another trace."""
        place = next(self.stale(-1, self.labels), None)
        while place is not None:
            self.refine_one(place)
            place = next(self.stale(place, self.labels), None)

    def has_block(self, labels: Labels) -> bool:
        """Whether a block begins in a trace. These labels were left out from the start, or were the only ones."""
        begun = (set(labels) - set(map(bytes_of, it.summary.get("unused", ()))) for it in self.left)
        return bool(self.found) or any(it.has_block for it in self.left) or any(begun)

    def stale(self, place: int, labels: Labels) -> Iterator[int]:
        """The traces that weren't judged by these labels yet, in the order in which they are judged after this one."""
        places = itertools.chain(range(place + 1, len(self.traces)), range(place))
        return (it for it in places if self.by[it] != labels)

    def expected(self, place: int, guess: list[bytes]) -> Iterator[tuple[int, Labels]]:
        """The passes that are wanted next if blocks with the labels of the guess are blamed in turn, and no others."""
        labels = self.labels
        yield place, labels
        for label in guess:
            labels = labels.without(label)
            yield place, labels
        yield from ((other, labels) for other in self.stale(place, labels))

    def refine_one(self, place: int) -> None:
        finding = None
        while True:
            answer = self.passes.answer(self.expected(place, self.guess_of(finding)))
            if finding and not finding.has_next(answer):
                self.output.finding(finding)
                finding = None
            if not answer.is_violation:
                break
            answer.refusal = self.refusal(answer, finding)
            if answer.refusal:
                break
            finding = self.taken(answer, finding)
        if finding:
            self.output.finding(finding)
        self.left[place], self.by[place] = answer, self.labels

    def refusal(self, answer: Answer, finding: Optional[Finding]) -> str:
        if not finding and self.most and self.findings == self.most:
            return f"there is still a violation after {counted(self.most, 'finding')}"
        return self.labels.refusal(answer.label)

    def taken(self, answer: Answer, finding: Optional[Finding]) -> Finding:
        """The finding to which the answer belongs. The blamed label is left out from now on."""
        if finding:
            finding.add(answer)
        else:
            finding = Finding([answer], answer.inward())
            self.findings += 1
        self.labels = self.labels.without(answer.label)
        self.found.append(answer.label)
        self.passes.progress.reached(answer, self.findings)
        return finding

    def guess_of(self, finding: Optional[Finding]) -> list[bytes]:
        """The labels of the blocks within, each once, as far as they can be left out."""
        inward = dict.fromkeys(label for _, label in finding.inward) if finding else {}
        judged = set(self.labels)
        checked = [label for label in inward if (label in judged) == self.labels.is_only]
        return list(itertools.takewhile(lambda label: not self.labels.refusal(label), checked))


class Needs:
    """Which labels of a file are no longer needed: those with which no block begins, or without which there is no violation either.
    A label that isn't needed is left out of the list for those after it, so all of them can be removed together."""

    def __init__(self, refined: Refinement) -> None:
        self.passes, self.labels, self.left = refined.passes, refined.labels, refined.left
        self.unused = [set(map(bytes_of, it.summary.get("unused", ()))) for it in refined.left]

    def places_of(self, label: bytes) -> list[int]:
        """The traces in which a block begins with this label."""
        return [place for place, unused in enumerate(self.unused) if label not in unused]

    def expected(self, label: bytes, later: list[bytes]) -> Iterator[tuple[int, Labels]]:
        for other in (label, *later):
            yield from ((place, self.labels.lacking(other)) for place in self.places_of(other))

    def reason_against(self, label: bytes, later: list[bytes]) -> str:
        """Why the label isn't needed; empty if it is."""
        places = self.places_of(label)
        if not places:
            return "no block begins with this label"
        for done in range(len(places)):
            expected = itertools.islice(self.expected(label, later), done, None)
            if self.passes.answer(expected).is_violation:
                return ""
        self.labels = self.labels.lacking(label)
        return "no violation without this line"
