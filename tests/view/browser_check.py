#!/usr/bin/env python3
"""Says what a browser finds wrong with a page: at 390 and 1,280 pixels, light and dark, in print, and by the keyboard alone.

  browser_check.py PAGE

The browser's profile lies in the folder in which this runs.
"""
import os
import sys
from html.parser import HTMLParser
from pathlib import Path

from browser import Browser

LOOKS = (Path(__file__).parent / "looks.js").read_text()
TEXT = "document.documentElement.textContent.replace(/\\s+/g, '')"
STOPS = """[...document.querySelectorAll('a[href], summary, [tabindex], input:checked')]
    .filter((one) => !one.closest('details:not([open]) > :not(summary)')).length"""
HERE = """(() => {
    const one = document.activeElement, style = getComputedStyle(one.closest('.tile') || one);
    if (one === document.body) return '';
    const all = [...document.querySelectorAll('*')];
    return `${all.indexOf(one)} ${style.outlineStyle === 'none' ? 'unseen' : 'seen'}`;
})()"""
ROWS = "[...document.querySelectorAll('.traces tbody tr')].filter((one) => one.getBoundingClientRect().height).length"
ALL_ROWS = "document.querySelectorAll('.traces tbody tr').length"
CHOSEN = "document.querySelector('input:checked').id"
CLOSED = """[...document.querySelectorAll('details')]
    .filter((one) => !one.lastElementChild.checkVisibility()).length"""


def text_of(path):
    """The text that a page means, without blanks."""
    texts = []
    parser = HTMLParser(convert_charrefs=True)
    parser.handle_data = texts.append
    with open(path, encoding="utf-8") as page:
        parser.feed(page.read())
    return "".join("".join(texts).split())


def looks(browser, width):
    """What is wrong with how the page looks in a window of this width. (A phone's window grows with what doesn't fit into it.)"""
    return browser.tell(LOOKS.replace("WIDTH", str(width)))


def keyboard(browser):
    """What the keyboard alone doesn't reach or show."""
    reached, wanted = [], browser.tell(STOPS)
    for _ in range(wanted + 5):
        browser.press("Tab", 9)
        here = browser.tell(HERE)
        if not here or here in reached:
            break
        reached.append(here)
    if len(reached) != wanted:
        yield f"the keyboard reaches {len(reached)} of {wanted}"
    yield from (f"{here} has no mark" for here in reached if here.endswith("unseen"))


def choices(browser):
    """The rows that the table shows by each choice, in their order, by arrow keys."""
    browser.tell("document.querySelector('#show-all').focus()")
    rows = [browser.tell(ROWS)]
    for _ in range(4):
        browser.press("ArrowRight", 39)
        rows.append(browser.tell(ROWS))
    browser.press("ArrowRight", 39)
    return rows


def rows_in_print(browser):
    """The choices by which paper, where nothing can be chosen, would not have each trace."""
    chosen, wanted = browser.tell(CHOSEN), browser.tell(ALL_ROWS)
    for kind in ("all", "violations", "faults", "opens", "serializables"):
        browser.tell(f"document.querySelector('#show-{kind}').checked = true")
        shown = browser.tell(ROWS)
        if shown != wanted:
            yield f"{shown} of {wanted} traces are shown if {kind} is chosen"
    browser.tell(f"document.querySelector('#{chosen}').checked = true")


def faults(browser, path):
    for width in (390, 1280):
        for scheme in ("light", "dark"):
            browser.media(scheme)
            browser.open(path, width)
            yield from (f"{width}, {scheme}: {fault}" for fault in [*browser.complaints(), *looks(browser, width)])
            if len(browser.picture()) < 30_000:
                yield f"{width}, {scheme}: an empty picture"
        if browser.tell(TEXT) != text_of(path):
            yield f"{width}: another text than was meant"
        yield from (f"{width}: {fault}" for fault in keyboard(browser))
    browser.media(kind="print")
    yield from (f"print: {fault}" for fault in looks(browser, width))
    if browser.tell(CLOSED):
        yield "print: something is closed"
    yield from (f"print: {fault}" for fault in rows_in_print(browser))
    if not browser.pdf().startswith(b"%PDF"):
        yield "print: no PDF"
    browser.media()


def main(page):
    browser = Browser(os.getcwd())
    try:
        wrong = list(faults(browser, os.path.abspath(page)))
        print(*wrong[:20] or ["well"], sep="\n")
        print("rows by choice:", *choices(browser))
    finally:
        browser.close()
    return bool(wrong)


if __name__ == "__main__":
    sys.exit(main(*sys.argv[1:]))
