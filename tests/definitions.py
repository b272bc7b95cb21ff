#!/usr/bin/env python3
"""docs/DEFINITIONS.md: how long each file of definitions is, that each uses only those above it,
those that the headline needs, the clauses that are quoted, and those that public contracts name.
docs/PROMISES.md: what it names. The manual page and the completions: the options of the source.
All documents: their links.

Run by itself, this prints the lists and the numbers of that page anew, into it.
"""

import re
import textwrap

import cited
import headline
import promises
import transcript
from checks import TOP

import options

ROW = re.compile(r"(\| `(babel_\w+)` (\w+) \|) \d+ \|")
LENGTH = re.compile(r"\d+\s+definitions\s+of\s+\d+\s+files,\s+\d+\s+lines,\s+of\s+which\s+\d+\s")
LIST = re.compile(r"(?m)(?:^- `babel_\w+` \w+: .*\n(?:^  .*\n)*)+")
QUOTED = re.compile(r"(?m)(?:^    .*\n)+")
IMPORT = re.compile(r"use Rattle\.(babel_\w+)\.specs\.(\w+)\.")
LINK = re.compile(r"\]\(([^)\s]*)\)")
HEADING = re.compile(r"(?m)^#+ (.*)")
LINKING = "*.md", "docs/*.md", "examples/**/*.md", "bench/*.md"
COLUMNS = {"width": 100, "break_long_words": False, "break_on_hyphens": False}


def length_of(file):
    """The lines of a file's definitions and comments."""
    lines = headline.specs(file).splitlines()
    return sum(bool(line) and not line.startswith("use ") for line in lines)


def printed(text):
    """The page with its numbers and lists as they are to be."""
    length, rows = headline.reading_list()
    counts = lambda row: f"{row[1]} {length_of((row[2], row[3]))} |"
    lines = (textwrap.fill(row, subsequent_indent="  ", **COLUMNS) + "\n" for row in rows)
    text = ROW.sub(counts, text)
    # Where the page breaks the sentence it is broken still, so that its numbers alone change.
    numbers = iter(re.findall(r"\d+", length))
    stated = lambda found: re.sub(r"\d+", lambda _: next(numbers), found[0])
    text = LENGTH.sub(stated, text, count=1)
    return LIST.sub(lambda _: "".join(lines), text, count=1)


def check_order(tally):
    """Each file uses only those above it."""
    seen = set()
    for file in headline.files():
        used = set(IMPORT.findall(headline.specs(file)))
        late = sorted(each for each in used - seen if each[1] != "declared")
        told = "".join(f"it uses {' '.join(each)}, which is not above it\n" for each in late)
        tally.check(f"the order of {' '.join(file)}", told)
        seen.add(file)


def check_options(tally):
    """What is printed of the options of the source stands in documents."""
    for path in options.DOCUMENTS:
        told = transcript.difference(options.printed(path), path.read_text())
        hint = "python3 tools/options.py prints them anew\n"
        tally.check(f"the options in {path.name}", told and told + hint)


def places(file):
    """The headings of a document, as links name them."""
    headings = HEADING.findall(file.read_text()) if file.suffix == ".md" else []
    return {re.sub(r"[^\w -]", "", each).lower().replace(" ", "-") for each in headings}


def check_links(tally):
    """Each link leads to a file that is there, and to a heading in it if it names one."""
    for file in sorted(each for pattern in LINKING for each in TOP.glob(pattern)):
        lost = []
        for link in LINK.findall(file.read_text()):
            name, _, place = link.partition("#")
            to = file.parent / name if name else file
            if not to.exists() or (place and place not in places(to)):
                lost.append(link)
        told = lost and f"they lead nowhere: {' '.join(lost)}\n"
        tally.check(f"the links of {file.relative_to(TOP)}", told)


def check(tally, _long):
    text = headline.DOCUMENT.read_text()
    clauses = (TOP / "crates/babel_canon/src/normal_form.rt").read_text()
    for block in QUOTED.findall(text):
        problem = "" if block in clauses else f"they do not stand in the code:\n{block}"
        tally.check("quoted clauses", problem)
    told = transcript.difference(printed(text), text)
    hint = "python3 tests/definitions.py prints them anew\n"
    tally.check("the lists and numbers of docs/DEFINITIONS.md", told and told + hint)
    check_options(tally)
    check_links(tally)
    check_order(tally)
    cited.check(tally, set(headline.files()))
    promises.check(tally)
    lengths = {}
    for file in headline.files():
        lengths[file[0]] = lengths.get(file[0], 0) + length_of(file)
    each = ", ".join(f"{crate} {length}" for crate, length in lengths.items())
    print(f"definitions: {sum(lengths.values())} lines ({each})")


if __name__ == "__main__":
    headline.DOCUMENT.write_text(printed(headline.DOCUMENT.read_text()))
