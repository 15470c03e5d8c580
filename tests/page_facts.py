"""Checks the pages against the program, the repository and each other, and counts habits of their sentences.

- A relative link must lead to a file, and with a #name to a heading in it. README.md, or a page that it links to, must link to every
  page, and docs/definitions.md to every file in specs/.
- The help, the manual page and the guide must have the same lines of the report, faults and statuses, in the same order. The manual
  page and the guide must mention each option of the help, and each number of the help from 1,000 on. The statuses and options in a script's help must be those of its manual page.
- The graph in docs/architecture.md must be the one that tools/graph draws from crates.txt, and the lists in completions/aerodrome.bash
  must be those that tools/completions writes.
- Each file that a page names must exist, and so must each name that a page gives as a crate's: a path such as
  `aero_batch::run::run`; a name after the crate's, such as aero_intake `Live`; and each name in backquotes in a row of a table
  that begins with a crate's name. A page that counts the repository's crates, as "the 37 crates" or "all 37 crates", must count them right.
- docs/definitions.md must link to each file of definitions that the headline needs before its part on the program, and count these
  files and their lines. docs/proved.md must name each type with data that only contracts see, and each with a proof by hand.
- The recipes of CONTRIBUTING.md for a new option and for a new fault of an event must name each file that contains the option
  --fail-open or the fault JoinSelf.
- Some habits make sentences hard to read (HABITS, below). A page may have each habit at most as often as ALLOWED says, and a page
  that isn't in ALLOWED must not have any. Only prose counts, not code or headings. If you rewrite such a sentence, lower the
  number.
"""
import glob
import os
import re
import subprocess

from page_text import SCRIPTS, TOP, blocks_of, is_manual, plain, text_of

MANUAL, GUIDE, README = "docs/aerodrome.1", "docs/guide.md", "README.md"
DEFINITIONS, PROVED = "docs/definitions.md", "docs/proved.md"
HEADLINE = "crates/aero_telling/specs/Founds.antt"
FAULT = re.compile(r"\b(?:[A-Z][a-z]+){2,}\b")


def slugs_of(page):
    """The names by which links reach the headings of a page."""
    text = re.sub(r"(?ms)^```.*?^```", "", text_of(page))
    slugs = []
    for heading in re.findall(r"(?m)^#+ (.*)$", text):
        slug = re.sub(r"[^\w\- ]", "", heading.lower()).strip().replace(" ", "-")
        slugs.append(slug if slug not in slugs else f"{slug}-{slugs.count(slug)}")
    return slugs


def links_of(page):
    text = re.sub(r"(?ms)^```.*?^```", "", text_of(page))
    return [it for it in re.findall(r"\]\(([^)\s]+)\)", text) if not re.match(r"[a-z]+:", it)]


def follow_links(page, tally):
    for link in links_of(page):
        path, _, name = link.partition("#")
        to = os.path.normpath(os.path.join(os.path.dirname(page), path)) if path else page
        there = os.path.exists(f"{TOP}/{to}")
        tally.note(there and (not name or name in slugs_of(to)), f"{page}: the link {link} leads nowhere")


def section(text, head, behind):
    """The text between a head and the next head of its kind."""
    _, found, rest = text.partition(head)
    return rest.split(behind)[0] if found else ""


def rows_of(text):
    """The rows of the tables in a text, each a list of cells without marks."""
    rows = []
    for row in re.findall(r"(?m)^\|(.*)\|$", text):
        rows.append([re.sub(r"(?<!\\)`", "", it).strip() for it in re.split(r"(?<!\\)\|", row)])
    return rows


def items_of(text):
    """The items of a section of a manual page, each with its head and its text."""
    items = []
    for item in text.split(".TP\n")[1:]:
        head, _, rest = item.partition("\n")
        items.append((plain(head), " ".join(plain(rest.split("\n.PP")[0]).split())))
    return items


def of_help(text):
    report = section(text, "The report, on standard output", "Only the first problem")
    heads = re.findall(r"(?m)^  (\S.*)\n((?:      .*\n?)*)", report)
    lines = [(head, " ".join(said.split())) for head, said in heads]
    statuses = re.findall(r"(?m)^  (\d)  (.*(?:\n     .*)*)", section(text, "The exit status", "\0"))
    return lines, [(number, " ".join(said.split())) for number, said in statuses]


def forms_of(number):
    """The ways to write a number."""
    power = number.bit_length() - 1
    return [str(number), f"{number:,}", *([f"2^{power}"] if number == 1 << power else [])]


def of_manual(text):
    lines = [it for it in items_of(section(text, ".SH REPORT\n", ".SH ")) if not it[0].startswith("two spaces")]
    return lines, items_of(section(text, ".SH EXIT STATUS\n", ".SH "))


def of_page(text, head):
    rows = rows_of(section(text, head, "\n## "))
    lines = [(row[0], row[-1]) for row in rows if row[0].startswith(("NAME", "traces"))]
    statuses = [(row[0], row[1]) for row in rows_of(text) if re.fullmatch(r"\d", row[0])]
    return lines, statuses


def compare_tables(program, tally):
    told = subprocess.run([program, "--help"], stdout=subprocess.PIPE, timeout=60, check=False).stdout.decode()
    manual, guide = text_of(MANUAL), text_of(GUIDE)
    lines, statuses = of_help(told)
    faults = [[FAULT.findall(said) for head, said in lines if kind in head] for kind in ("malformed", "ill-formed")]
    tally.note(len(lines) == 8 and len(statuses) == 5 and all(faults), "the help has lines, faults and statuses")
    head = "## The report\n"
    others = {MANUAL: of_manual(manual), GUIDE: of_page(guide, head)}
    for page, (its_lines, its_statuses) in others.items():
        heads = [head for head, _ in its_lines]
        same = heads == [head for head, _ in lines]
        tally.note(same, f"{page}: its lines of the report aren't those of the help", str(heads))
        tally.note(its_statuses == statuses, f"{page}: its statuses aren't those of the help", str(its_statuses))
    for place, kind in enumerate(("malformed", "ill-formed")):
        said = [[said for head, said in its if kind in head] for its in (lines, others[MANUAL][0])]
        tally.note(said[0] == said[1], f"{MANUAL}: what it says of {kind} lines isn't what the help says", str(said))
        head = "### Faults of a line\n" if kind == "malformed" else "### Faults of an event\n"
        its = [row[0] for row in rows_of(section(guide, head, "\n##")) if FAULT.fullmatch(row[0])]
        tally.note([its] == faults[place], f"{GUIDE}: its faults of {kind} lines aren't those of the help", str(its))
    for number in sorted(set(re.findall(r"(?<!\w)\d{4,}(?!\w)", told)), key=int):
        for page, text in ((MANUAL, plain(manual)), (GUIDE, guide)):
            there = any(re.search(rf"(?<![\w,^]){re.escape(form)}(?!,?\d)", text) for form in forms_of(int(number)))
            tally.note(there, f"{page}: the number {number} of the help isn't there")
    for option in sorted(set(re.findall(r"(?m)^ +(?:-\w, )?(--[a-z0-9-]+)", told))):
        for page, text in ((MANUAL, plain(manual)), (GUIDE, guide)):
            tally.note(option in text, f"{page}: the option {option} isn't there")


def compare_scripts(tally):
    for name, script in SCRIPTS.items():
        told = subprocess.run([f"{TOP}/{script}", "--help"], stdout=subprocess.PIPE, timeout=60, check=False).stdout.decode()
        page = f"docs/{name}.1"
        manual = text_of(page)
        (_, its), (_, statuses) = of_manual(manual), of_help(told)
        tally.note(statuses and its == statuses, f"{page}: its statuses aren't those of the help", f"{its}\n{statuses}")
        for option in sorted(set(re.findall(r"(?<![\w-])--[a-z0-9-]+", told))):
            tally.note(option in plain(manual), f"{page}: the option {option} isn't there")


def compare_graph(tally):
    page = "docs/architecture.md"
    drawn = subprocess.run([f"{TOP}/tools/graph"], stdout=subprocess.PIPE, timeout=60, check=False).stdout.decode()
    its = ["\n".join([*lines, ""]) for mark, lines in blocks_of(page) if mark == "mermaid"]
    tally.note(its == [drawn], f"{page}: its graph isn't what tools/graph draws", drawn)


def compare_completions(tally):
    same = subprocess.run([f"{TOP}/tools/completions", "--check"], timeout=60, check=False).returncode == 0
    tally.note(same, "completions/aerodrome.bash: its lists aren't those that tools/completions writes from _aerodrome")


# The name of a file of the repository. A name with a word in capitals is for any file, and a file that a build makes may not exist
# yet.
FILES = re.compile(r"(?<![\w/.<-])((?:crates|docs|tests|tools|bench|commands|packaging|logger|java|include|examples|completions)/[\w.+*/-]*[\w*])")
FOR_ANY = re.compile(r"(?:^|[/_.])(?:[A-Z]{2,}|WHAT_\w+)(?:[/_.]|$)|/out(?:/|$)")


def texts_of(crate, parts=("src", "specs", "proofs", "must-fail", "wrong-bodies")):
    """The files of a crate, each with its text."""
    found = {}
    for part in parts:
        for path in glob.glob(f"{TOP}/crates/{crate}/{part}/**/*.*", recursive=True):
            found[os.path.relpath(path, TOP)] = text_of(os.path.relpath(path, TOP))
    return found


class Crates:
    """The names in each crate."""

    def __init__(self):
        self.found = {}

    def has(self, crate, name):
        """Whether each part of a name such as Name::read occurs in the crate's files outside of comments, or names such a file."""
        if crate not in self.found:
            texts = texts_of(crate)
            stems = {os.path.splitext(part)[0] for path in texts for part in path.split("/")}
            code = re.sub(r"(?m)(//|-- |^--$).*$", "", "\n".join(texts.values()))
            self.found[crate] = stems | set(re.findall(r"\w+", code))
        return all(part in self.found[crate] for part in re.split(r"::|/", name))


def names_in(page):
    """The names of crates on a page: each a list of crates, and a name that one of them must have."""
    text = re.sub(r"(?ms)^```.*?^```", "", text_of(page))
    for path in re.findall(r"(?<![\w:])aero_\w+(?:::\w+)+", text):
        crate, _, name = path.partition("::")
        yield [crate], name
    for crate, name in re.findall(r"(aero_\w+) `([\w:]+)`", text):
        yield [crate], name
    for row in re.findall(r"(?m)^\|(.*)\|$", text):
        first, *rest = re.split(r"(?<!\\)\|", row)
        crates = re.findall(r"aero_\w+", first)
        for name in re.findall(r"`([A-Za-z_]\w*(?:::\w+)*)`", " ".join(rest)) if crates else []:
            yield crates, name.removeprefix(f"{crates[0]}::")


CRATES = Crates()


def look_for_names(page, tally):
    text = re.sub(r"(?ms)^```.*?^```", "", text_of(page))
    text = re.sub(r"\]\([^)\s]+\)", "]", text)
    for path in sorted(set(FILES.findall(text))):
        if not FOR_ANY.search(path):
            there = glob.glob(f"{TOP}/{path}") or glob.glob(f"{TOP}/{path}.*")
            tally.note(there, f"{page}: there is no {path}")
    for its, name in names_in(page):
        there = any(os.path.isdir(f"{TOP}/crates/{crate}") and CRATES.has(crate, name) for crate in its)
        tally.note(there, f"{page}: {' and '.join(its)} has no {name}")
    for count in re.findall(r"\b(?:[Aa]ll|[Tt]he)\s+(\d+)\s+crates\b", text):
        there = len(glob.glob(f"{TOP}/crates/*/src"))
        tally.note(int(count) == there, f"{page}: there are {there} crates, and not {count}")


def files_in(recipe):
    """The files that a recipe of CONTRIBUTING.md names; those of a crate follow its name."""
    found, crate = set(), ""
    for word in re.findall(r"crates/aero_\w+(?![\w/])|(?:src|specs|proofs)/[\w/.]+\w|[\w./]+/[\w./]*\w", recipe):
        if re.fullmatch(r"crates/aero_\w+", word):
            crate = word
        elif word.startswith(("src/", "specs/", "proofs/")):
            found.add(f"{crate}/{word}")
        else:
            found.add(word)
    return found


def compare_recipes(tally):
    page = "CONTRIBUTING.md"
    for head, known in (("**A new option**", r"fail[_-]open"), ("**A new fault**", r"JoinSelf")):
        named = files_in(section(text_of(page), head, "\n**A new "))
        texts = {}
        for crate in sorted(os.listdir(f"{TOP}/crates")):
            texts |= texts_of(crate, ("src", "specs", "proofs"))
        touched = {path for path, text in texts.items() if re.search(known, text)}
        if "option" in head:
            touched |= {it for it in glob.glob("completions/*", root_dir=TOP) if re.search(known, text_of(it))}
        tally.note(touched <= named, f"{page}: {head} doesn't name each file", "\n".join(sorted(touched - named)))
        for path in sorted(named):
            tally.note(os.path.exists(f"{TOP}/{path}"), f"{page}: {head}: there is no {path}")


# The head of a sentence, before its first word.
HEAD = r"(?:^|(?<=[.!?:\n])|(?<=[.!?:][)*\"]))[\s*(\"\[]*"
HABITS = {
    **{f"sentences that begin with {word}": re.compile(rf"{HEAD}{word}\b") for word in ("Where", "Of", "Behind", "Below")},
    "in the place of": re.compile(r"\bin the place of\b"),
    "but for": re.compile(r"\bbut for\b(?! example)"),
    "stand": re.compile(r"\bstands?\b(?!-)", re.I),
}
ALLOWED = {
    "CONTRIBUTING.md": {"stand": 1},
    "docs/architecture.md": {"stand": 1},
    "docs/definitions.md": {"stand": 6},
    "docs/proving.md": {"stand": 2},
}


def prose_of(page):
    """The paragraphs, items and cells of a page, each on a line, without code, headings and the targets of links."""
    text = text_of(page)
    if is_manual(page):
        text = re.sub(r"(?ms)^\.nf\n.*?^\.fi$", "", text)
        text = plain(re.sub(r"(?m)^\.(?:SH|SS|TH)\b.*$", "", text))
        return re.sub(r"(?m)^\.[A-Za-z].*$", "\n", text)
    text = re.sub(r"(?ms)^ *```.*?^ *```$", "", text)
    text = re.sub(r"(?m)^#.*$", "", text)
    text = re.sub(r"\]\([^)\s]+\)", "]", re.sub(r"`[^`]*`", "_", text))
    text = re.sub(r"(?m)^\s*(?:[-*]|\d+\.)\s|\s*\|\s*", "\n\n", text)
    return "\n".join(" ".join(part.split()) for part in re.split(r"\n\s*\n", text))


def around(prose, place):
    """The words before and after a place, on its line."""
    return (prose[max(0, place - 40) : place].split("\n")[-1] + prose[place : place + 40].split("\n")[0]).strip()


def count_habits(page, tally):
    prose, more = prose_of(page), []
    for habit, known in HABITS.items():
        found = [around(prose, it.end()) for it in known.finditer(prose)]
        most = ALLOWED.get(page, {}).get(habit, 0)
        if len(found) > most:
            more += [f"  {habit}: {len(found)}, at most {most}", *(f"    {it}" for it in found)]
    tally.note(not more, f"{page}: it has more of these than tests/pages allows:", "\n".join(more))


def check_page(page, tally):
    """Counts a page's habits, follows its links and looks for what it names."""
    count_habits(page, tally)
    if not is_manual(page):
        follow_links(page, tally)
        look_for_names(page, tally)


def linked_from(page):
    """The files to which a page links."""
    paths = {link.partition("#")[0] for link in links_of(page)} - {""}
    return {os.path.normpath(os.path.join(os.path.dirname(page), path)) for path in paths}


def link_all(pages, tally):
    """One or two links lead from README.md to each page, and one from the page of definitions to each file of them."""
    linked = linked_from(README)
    for page in [page for page in linked if page in pages and not is_manual(page)]:
        linked = linked | linked_from(page)
    for page in pages:
        tally.note(page == README or page in linked, f"{README}: neither it nor a page that it links to has a link to {page}")
    read_aloud = {os.path.normpath(f"docs/{link}") for link in links_of(DEFINITIONS)}
    for spec in sorted(glob.glob("crates/*/specs/*.antt", root_dir=TOP)):
        tally.note(spec in read_aloud or spec.endswith("/Lib.antt"), f"{DEFINITIONS}: no link leads to {spec}")


def needed_by(spec):
    """A file of definitions with all that it uses, directly or by others."""
    needed, open_ones = set(), [spec]
    while open_ones:
        it = open_ones.pop()
        if it not in needed:
            needed.add(it)
            used = re.findall(r"(?m)^use Rattle\.(aero_\w+)\.specs\.([\w.]+?)(?=\.\{| as |$)", text_of(it))
            paths = {f"crates/{crate}/specs/{name.replace('.', '/')}.antt" for crate, name in used if not name.startswith("declared.")}
            open_ones += sorted(paths)
    return needed


def compare_headline(tally):
    """The definitions of the headline are linked where the page reads it aloud, and counted."""
    page = text_of(DEFINITIONS)
    needed = needed_by(HEADLINE)
    linked = re.findall(r"\]\(\.\./(crates/[^)#]+)\)", page.partition("\n## The program\n")[0])
    tally.note(needed <= set(linked), f"{DEFINITIONS}: no link before the program", "\n".join(sorted(needed - set(linked))))
    lines = sum(text_of(it).count("\n") for it in needed)
    counted = f"{len(needed)} files of {lines:,} lines"
    tally.note(counted in page, f"{DEFINITIONS}: the headline's definitions are {counted}")


def by_crate(types):
    """Types of crates as a page lists them."""
    its = {}
    for crate, name in sorted(types):
        its.setdefault(crate, []).append(f"`{name}`")
    return "; ".join(f"{crate} {', '.join(names)}" for crate, names in its.items()) + "."


def compare_trusted(tally):
    """The page on proofs names each type with data for contracts alone, and each with a proof by hand."""
    page = " ".join(text_of(PROVED).split())
    seen, proved = set(), set()
    for path in glob.glob("crates/*/src/**/*.rt", root_dir=TOP, recursive=True):
        for name, fields in re.findall(r"(?ms)^(?:pub(?:\(crate\))? )?(?:struct|enum) (\w+)([^;]*?(?:^\}|\);))", text_of(path)):
            if re.search(r": Ghost\w+,|\bSnapshot<", re.sub(r"//.*", "", fields)):
                seen.add((path.split("/")[1], name))
    for path in glob.glob("crates/*/proofs/**/Proof.antt", root_dir=TOP, recursive=True):
        proved.add((path.split("/")[1], path.split("/")[-3]))
    for what, types in (("data that only contracts see", seen), ("proofs by hand", proved)):
        tally.note(by_crate(types) in page, f"{PROVED}: it lists other types with {what} than", by_crate(types))


def compare_pages(pages, program, tally):
    """Compares the pages with each other, with the program and the scripts, and with the files of the repository."""
    link_all(pages, tally)
    compare_tables(program, tally)
    compare_scripts(tally)
    compare_graph(tally)
    compare_completions(tally)
    compare_recipes(tally)
    compare_headline(tally)
    compare_trusted(tally)
