"""The text of the pages, and the count of the checks, for page_examples.py and page_facts.py."""
import os
import re

TOP = os.path.dirname(os.path.dirname(os.path.abspath(__file__)))
SCRIPTS = {it: f"commands/{it}" for it in ("aerodrome-merge", "aerodrome-refine", "aerodrome-page", "aerodrome-sarif")}
BLOCK = re.compile(r"(?ms)^( *)```([^\n]*)\n(.*?)^\1```$")


class Tally:
    """Counts what passed and what failed."""

    def __init__(self):
        self.passed = self.failed = self.skipped = 0

    def note(self, holds, what, shown=""):
        if holds:
            self.passed += 1
        else:
            self.failed += 1
            print(what + (f"\n{shown}" if shown else ""))

    def skip(self, what, why, kind):
        skips = os.environ.get("SKIPS", "allowed").split()
        if kind not in skips and "allowed" not in skips:
            self.note(False, f"{what}: can't be set up: {why} (SKIPS=allowed passes over such an example)")
        else:
            self.skipped += 1
            print(f"{what}: skipped: {why}")

    def line(self):
        return f"{self.passed} passed, {self.failed} failed" + (f", {self.skipped} skipped" if self.skipped else "")


def text_of(page):
    with open(f"{TOP}/{page}", encoding="utf-8") as it:
        return it.read()


def is_manual(page):
    return page.endswith(".1")


def plain(text):
    """The text of a manual page without its marks."""
    text = re.sub(r'(?m)^\.\\".*\n', "", text)
    text = re.sub(r"(?m)^\.(?:B|I|BI|IB|BR|RB|RI|IR)\s+(.*)$", lambda it: joined(it.group(1)), text)
    text = re.sub(r"\\f[BIRP]", "", text)
    return text.replace(r"\-", "-").replace(r"\e", "\\").replace(r"\&", "").replace("\\\\", "\\")


def joined(words):
    """The words after a macro of a manual page, joined without blanks except those in quotes."""
    return "".join(quoted if quoted or not word else word for quoted, word in re.findall(r'"([^"]*)"|(\S+)', words))


def blocks_of(page):
    """The blocks of code of a page, each with its mark and its lines."""
    text = text_of(page)
    if is_manual(page):
        found = re.findall(r"(?m)^(?:\.\\\" (not run: [^\n]+|no commands)\n)?\.nf\n\.RS\n(.*?)^\.RE\n\.fi", text, re.S)
        return [(f"text {mark}" if mark else "console", plain(block).split("\n")[:-1]) for mark, block in found]
    return [(mark, [line.removeprefix(indent) for line in block.split("\n")[:-1]]) for indent, mark, block in BLOCK.findall(text)]
