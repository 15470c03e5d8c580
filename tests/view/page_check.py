#!/usr/bin/env python3
"""Says what is wrong with a page, and else its text, a block a line.

  page_check.py PAGE [WORD]

A page is well-formed XML behind its first line. It loads and runs nothing, each of its links leads to a place in it, what scrolls
can be reached by the keyboard, and no character in it is one of control or turns a text round. With a WORD the text is printed,
from the first line on that has it; cells of a row have a tab between them. Pictures are told by their labels.
"""
import re
import sys
import unicodedata
import xml.etree.ElementTree as tree

LOADS = """script iframe object embed link img image audio video form base use foreignObject animate set style:svg""".split()
RUNS = ("src", "srcdoc", "srcset", "action", "formaction", "xlink:href", "background", "ping", "data", "poster")
LINES = """h1 h2 h3 p li tr caption label summary pre footer figcaption legend article title svg""".split()
BAD = ("Cc", "Cf", "Cs", "Co", "Cn", "Zl", "Zp")


def tag_of(one):
    return one.tag.rsplit("}", 1)[-1]


def faults(text, root):
    ids = [one.get("id") for one in root.iter() if one.get("id")]
    if len(set(ids)) < len(ids):
        yield "an id twice"
    for one in root.iter():
        tag = tag_of(one)
        if tag in LOADS:
            yield f"an element {tag}"
        for key, value in one.items():
            if key.startswith("on") or key in RUNS:
                yield f"an attribute {key} of {tag}"
            if key == "href" and (value[:1] != "#" or value[1:] not in ids):
                yield f"a link to {value}"
            if key in ("aria-labelledby", "for") and not set(value.split()) <= set(ids):
                yield f"{key} of {value}"
            for name in re.findall(r"url\(([^)]*)\)", value):
                if name[1:] not in ids:
                    yield f"no {name}"
        if "tabindex" in one.attrib and not one.get("aria-label"):
            yield f"{tag} can be reached, and has no name"
    for one in root.iter("article"):
        for box in one.iter("div"):
            if "box" in box.get("class", "") and box.get("tabindex") != "0":
                yield "a box that scrolls can't be reached"
    policy = [one.get("content", "") for one in root.iter("meta") if one.get("http-equiv") == "Content-Security-Policy"]
    if not policy or not policy[0].startswith("default-src 'none';") or "script" in policy[0]:
        yield "no policy against loading"
    style = "".join(root.find("head/style").itertext())
    if "url(" in style or "@import" in style:
        yield "a style that loads"
    for char in sorted(set(text)):
        if unicodedata.category(char) in BAD and char != "\n":
            yield f"a character {char!r}"


def told(one):
    """The text of an element, a line for each block within it."""
    tag = tag_of(one)
    if tag == "svg":
        return "\n[" + one.get("aria-label") + "]\n" if one.get("aria-label") else ""
    text = one.text or ""
    for part in one:
        text += "\t" if tag_of(part) in ("td", "th") and text.strip() else ""
        text += (" / " if tag_of(part) == "br" else told(part)) + (part.tail or "")
    return "\n" + text.strip() + "\n" if tag in LINES else text


def main(path, word=""):
    with open(path, encoding="utf-8") as page:
        text = page.read()
    first, _, rest = text.partition("\n")
    root = tree.fromstring(rest)
    wrong = ["no doctype"] * (first != "<!DOCTYPE html>") + list(faults(text, root))
    lines = [re.sub(r"[ \n]+", " ", line) for line in told(root.find("body")).split("\n") if line.strip()]
    start = next((n for n, line in enumerate(lines) if word in line), 0)
    for line in wrong[:20] or (lines[start:] if word else []):
        print(line)
    return bool(wrong)


if __name__ == "__main__":
    sys.exit(main(*sys.argv[1:]))
