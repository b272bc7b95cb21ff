#!/usr/bin/env python3
"""The definitions of the headline, in reading order.

Run by itself, this prints them on one page, with what docs/DEFINITIONS.md says of how they are
read, and of the clauses that they stand for.
"""

import re
from itertools import takewhile

from checks import TOP

DOCUMENT = TOP / "docs/DEFINITIONS.md"
# A variant of `Event`, which definitions name, has an announcement.
ROOTS = [("babel_canon", "AnswersTell", "AnswersTell"), ("babel_tlv", "Route", "Announcement")]
ROW = re.compile(r"\| `(babel_\w+)` (\w+) \| \d+ \|")
IMPORT = re.compile(r"use Rattle\.(babel_\w+)\.specs\.(\w+)\.\{([^}]*)\}")
DEFINED = re.compile(r"(?m)^ *(?:abbrev pub|unfoldable pub|pub record) (\w+)")


def specs(file):
    crate, name = file
    return (TOP / f"crates/{crate}/specs/{name}.antt").read_text()


def files():
    """The files of definitions, in the order of the table in docs/DEFINITIONS.md."""
    return ROW.findall(DOCUMENT.read_text())


def comment_lines(text):
    return sum(line.lstrip().startswith("--") for line in text.splitlines())


def read(file):
    """A file's imports, each with its file, and its definitions, with their comments."""
    text = specs(file)
    found = IMPORT.findall(text)
    imports = {each.strip(): (of, at) for of, at, names in found for each in names.split(",")}
    definitions = {}
    for part in re.split(r"\n\n+", text):
        name = DEFINED.search(part)
        if name:
            definitions[name[1]] = part.strip("\n")
    return imports, definitions


def words(text):
    """The words of a definition, without its comments."""
    lines = (line for line in text.splitlines() if not line.lstrip().startswith("--"))
    return set(re.findall(r"\w+", "\n".join(lines)))


def path():
    """The files with definitions that the headline's names, directly or by others, and these."""
    contents = {file: read(file) for file in files()}
    needed, found = [*ROOTS], set()
    while needed:
        crate, name, definition = needed.pop()
        imports, definitions = contents.get((crate, name), ({}, {}))
        if definition not in definitions or (crate, name, definition) in found:
            continue
        found.add((crate, name, definition))
        for word in words(definitions[definition]):
            needed.append((*imports.get(word, (crate, name)), word))
    paths = {}
    for file, (_, definitions) in contents.items():
        chosen = {key: text for key, text in definitions.items() if (*file, key) in found}
        if chosen:
            paths[file] = chosen
    return paths


def reading_list():
    """What docs/DEFINITIONS.md says of these: their number and length, and a line for each file."""
    found = path()
    texts = [text for definitions in found.values() for text in definitions.values()]
    lines, comments = sum(len(text.splitlines()) for text in texts), sum(map(comment_lines, texts))
    length = f"{len(texts)} definitions of {len(found)} files, {lines} lines"
    length += f", of which {comments} are comments"
    rows = []
    for (crate, name), definitions in found.items():
        rows.append(f"- `{crate}` {name}: {', '.join(f'`{each}`' for each in definitions)}")
    return length, rows


def promised(begin, end):
    """What docs/DEFINITIONS.md has from some words up to others."""
    text = DOCUMENT.read_text()
    return text[(start := text.index(begin)) : text.index(end, start)].strip()


def head(file):
    """What a file is for: its first comment."""
    return "\n".join(takewhile(lambda line: line.startswith("--"), specs(file).splitlines()))


def section(file, definitions):
    yield f"-- ==== {' '.join(file)}"
    yield head(file)
    yield from definitions.values()


def page():
    """What is proved; the theorem, which stands in the last file, and the clauses that have it; how
    definitions are read, and the variants that they name; and the other definitions, those of each
    file after what it is for."""
    *others, (last, theorem) = path().items()
    yield promised("**What is proved**", "**For the headline alone**")
    yield from section(last, theorem)
    yield promised("The clauses of `normalise(", "## The headline over tables")
    yield promised("## How a definition is read", "Not needed for the headline:")
    yield promised("The variants that they name", "The clauses of `normalise(")
    for file, definitions in others:
        yield from section(file, definitions)


if __name__ == "__main__":
    print("\n\n".join(page()))
