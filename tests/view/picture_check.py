#!/usr/bin/env python3
"""Holds the pictures of a page to the traces and to the report, by the table of docs/aerodrome-page.1.

  picture_check.py PAGE REPORT

For each violation it reads the trace by the definitions (blocks, their labels and ends up to the violation), and then the
picture: columns or lanes in the order in which the transactions begin, rows for lines downwards, how many lines are folded, the
red number, a box for each transaction from its first line to its end, the blamed one, dashed feet, and arrows that leave and
enter the boxes at the heights of their events. No arrow passes over a text. The report's transactions and closing event are held
to the trace too. The last line counts pictures and arrows.
"""
import itertools
import json
import re
import sys
import xml.etree.ElementTree as tree

ROOM = 8  # how far an arrow may be off the height of its event
WIDE = 7.3  # a character


def blocks_of(path, last):
    """By its first line, each transaction up to line `last`: its thread, whether it is a block, its label, its end."""
    found, inside = {}, {}
    with open(path, encoding="utf-8") as trace:
        for line, text in enumerate(trace, 1):
            if line > last or not text.strip():
                continue
            thread, op = text.strip().split("|")[:2]
            if thread not in inside:
                label = op[6:-1] if op.startswith("begin(") else ""
                inside[thread] = [line, 0]
                found[line] = [thread, op.startswith("begin"), label, None]
            inside[thread][1] += op.startswith("begin") - op.startswith("end")
            if not inside[thread][1]:
                first = inside.pop(thread)[0]
                found[first][3] = line if found[first][1] else None
    return found


def wrong_members(finding, blocks):
    """Which of the members that go with the cycle aren't what the trace says."""
    told = []
    for first in dict.fromkeys(step["first"] for step in finding["cycle"]):
        thread, is_block, label, end = blocks[first]
        one = {"first": first, "thread": thread, "block": is_block, "label": label, "end": end}
        told.append({key: value for key, value in one.items() if value is not None and value != ""})
    if finding["transactions"] != told:
        yield f"transactions {finding['transactions']}, and not {told}"
    with open(finding["source"], encoding="utf-8") as trace:
        text = next(itertools.islice(trace, finding["line"] - 1, None))
    closing = finding["closing"]
    if text.strip().split("|")[:2] != [closing["thread"], closing["op"] + f"({closing.get('target')})" * ("target" in closing)]:
        yield f"closing {closing}"


def points_of(path):
    """The points of a path, corners as their ends."""
    x = y = 0
    for command, values in re.findall(r"([MHVqCz])([-\d. ]*)", path):
        numbers = [float(value) for value in values.split()]
        if command == "M":
            x, y = numbers
        elif command == "H":
            x = numbers[0]
        elif command == "V":
            y = numbers[0]
        elif command == "q":
            x, y = x + numbers[2], y + numbers[3]
        elif command == "C":
            x, y = numbers[4:]
        yield x, y


def room_of(text):
    """Left, top, right and bottom of a text."""
    x, y, width = float(text.get("x")), float(text.get("y")), WIDE * len(text_of(text))
    left = x - {"start": 0, "middle": width / 2, "end": width}[text.get("text-anchor")]
    return left, y - 9, left + width, y + 2


def text_of(one):
    return "".join([one.text or ""] + [part.tail or "" for part in one])


class Picture:
    def __init__(self, svg):
        self.texts = [one for one in svg.iter() if one.tag == "text"]
        self.paths = [one for one in svg.iter() if one.tag == "path"]
        self.height = {int(text_of(one)): float(one.get("y")) - 4 for one in self.texts if "line" in one.get("class").split()}
        self.boxes = []
        for one in self.of("box"):
            xs, ys = zip(*points_of(one.get("d")))
            self.boxes.append((min(xs), min(ys), max(xs), max(ys), "blamed" in one.get("class"), not one.get("d").endswith("z")))
        self.is_wide = not [one for one in self.texts if one.get("class") == "column"]

    def of(self, kind):
        return [one for one in self.paths if kind in one.get("class").split()]

    def faults(self, finding, blocks):
        cycle = finding["cycle"]
        firsts = sorted({step["first"] for step in cycle})
        wanted = {step["line"] for step in cycle}
        for first in firsts:
            wanted |= {first, blocks[first][3] or first}
        if list(self.height) != sorted(wanted) or sorted(self.height.values()) != list(self.height.values()):
            yield f"rows {list(self.height)}, and not {sorted(wanted)}"
            return
        red = [text_of(one) for one in self.texts if "closing" in one.get("class")]
        if red != [str(finding["line"])]:
            yield f"red is {red}"
        rows = sorted(wanted)
        folds = [f"\u22ee {below - above - 1}" for above, below in zip(rows, rows[1:]) if below - above > 1]
        if not self.is_wide and [text_of(one) for one in self.texts if text_of(one)[:1] == "\u22ee"] != folds:
            yield "other folds"
        threads = list(dict.fromkeys(blocks[first][0] for first in firsts))
        if not self.is_wide and [text_of(one) for one in self.texts if one.get("class") == "column"] != threads:
            yield "other columns"
        if self.is_wide != (len(threads) > 6):
            yield f"{len(threads)} threads, and lanes {self.is_wide}"
        yield from self.faults_of_boxes(finding, blocks, firsts, threads)
        yield from self.faults_of_arrows(cycle, firsts)

    def faults_of_boxes(self, finding, blocks, firsts, threads):
        if len(self.boxes) != len(firsts):
            yield f"{len(self.boxes)} boxes of {len(firsts)} transactions"
        lefts = {}
        for first, (left, top, right, bottom, is_blamed, is_open) in zip(firsts, self.boxes):
            thread, is_block, label, end = blocks[first]
            last = end or (max(self.height) if is_block else first)
            if not top <= self.height[first] <= self.height[last] <= bottom:
                yield f"the box from line {first} isn't from {first} to {last}"
            if any(top <= height <= bottom for line, height in self.height.items() if not first <= line <= last):
                yield f"the box from line {first} has other lines"
            if is_blamed != (first == finding["begun"]) or is_open != (is_block and end is None):
                yield f"the box from line {first}: blamed {is_blamed}, open {is_open}"
            if lefts.setdefault(thread, left) != left:
                yield f"{thread} has two columns"
            places = [(text_of(one), float(one.get("x")), float(one.get("y"))) for one in self.texts]
            names = [text for text, x, y in places if left <= x <= right and top <= y <= bottom]
            if not self.is_wide and is_block and (label or "block") not in names:
                yield f"the box from line {first} has no {label or 'block'}"
            if not self.is_wide and not is_block and len(names) != 1:
                yield f"the box of the event on line {first} has {names}"
        if [thread for _, thread in sorted((left, thread) for thread, left in lefts.items())] != threads:
            yield "columns in another order"

    def faults_of_arrows(self, cycle, firsts):
        pairs = [(before, after) for before, after in zip(cycle, cycle[1:]) if before["first"] != after["first"]]
        lines = self.of("arrow")
        if len(lines) != len(pairs):
            yield f"{len(lines)} arrows of {len(pairs)} conflicts"
        left = list(pairs)
        rooms = [room_of(one) for one in self.texts if one.get("class") != "numeral"]
        yield from self.faults_of_channels(lines)
        for line in lines:
            points = list(points_of(line.get("d")))
            fits = [pair for pair in left if self.is_between(points, pair, firsts)]
            if not fits:
                yield f"an arrow from {points[0]} to {points[-1]} is no conflict"
                continue
            left.remove(fits[0])
            if line.get("class").split()[1] != kind_of(*fits[0]):
                yield f"an arrow is {line.get('class')}"
            for (x1, y1), (x2, y2) in zip(points, points[1:]) if not self.is_wide else ():
                for left_end, top, right_end, bottom in rooms:
                    if max(x1, x2) > left_end and min(x1, x2) < right_end and max(y1, y2) > top and min(y1, y2) < bottom:
                        yield f"an arrow runs over the text at {left_end:.0f}, {top:.0f}"

    def faults_of_channels(self, lines):
        """No two arrows run downwards over one another."""
        runs = []
        for line in lines if not self.is_wide else ():
            points = list(points_of(line.get("d")))
            runs += [(x1, min(y1, y2), max(y1, y2)) for (x1, y1), (x2, y2) in zip(points, points[1:]) if x1 == x2]
        for number, (x, top, bottom) in enumerate(runs):
            if any(abs(x - other) < 4 and top < low and high < bottom for other, high, low in runs[:number]):
                yield f"two arrows run down at {x}"

    def is_between(self, points, pair, firsts):
        """Whether an arrow runs from the box and the height of one event to those of the other."""
        for (x, y), event in zip((points[0], points[-1]), pair):
            left, _, right, _, _, _ = self.boxes[firsts.index(event["first"])]
            is_at_edge = min(abs(x - left), abs(x - right)) <= ROOM or self.is_wide and left < x < right
            if abs(y - self.height[event["line"]]) > ROOM or not is_at_edge:
                return False
        return True


def kind_of(before, after):
    """The kind of a conflict, by the operations."""
    kinds = {"wr": "write-read", "rw": "read-write", "ww": "write-write", "relacq": "lock"}
    if before["thread"] == after["thread"]:
        return "thread"
    if before["op"] == "fork" and before["target"] == after["thread"]:
        return "fork"
    return "join" if after["op"] == "join" and after["target"] == before["thread"] else kinds[before["op"] + after["op"]]


def main(page, report):
    with open(page, encoding="utf-8") as text:
        root = tree.fromstring(text.read().partition("\n")[2])
    with open(report, encoding="utf-8") as lines:
        findings = [of for of in map(json.loads, lines) if of.get("verdict") == "violation"]
    articles = list(root.iter("article"))
    faults = [f"{len(articles)} articles of {len(findings)} violations"] * (len(articles) != len(findings))
    arrows = 0
    for finding, article in zip(findings, articles):
        picture = Picture(next(article.iter("svg")))
        arrows += len(picture.of("arrow"))
        blocks = blocks_of(finding["source"], finding["line"])
        told = [*wrong_members(finding, blocks), *picture.faults(finding, blocks)]
        faults += [f"{finding['source']}: {fault}" for fault in told]
    print(*faults[:20], f"{len(articles)} pictures, {arrows} arrows", sep="\n")
    return bool(faults)


if __name__ == "__main__":
    sys.exit(main(*sys.argv[1:]))
