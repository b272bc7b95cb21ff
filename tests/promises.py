"""docs/PROMISES.md, and the heads of the crates: each call, clause and definition that a promise
names is in the crates.

A call has the clauses that are named with it in its contract, a definition among its fields.
"""

import re
from collections import defaultdict

from checks import TOP

SECTION = re.compile(r"(?m)^## .*\(`(\w+)`\)\n")
PROMISE = re.compile(r"(?m)^- .*\n(?:  .*\n)*")
HEAD = re.compile(r"(?m)^//! ?(.*\n)")
# A call, a type or a definition, or a clause, which stands after these, or before `of` and these.
TOKEN = re.compile(r"`([\w:]+)`|\*(\w+)\*(?=(\s+of\s+`)?)")
IMPL = r"impl(?:<[^{]*?>)? (?:(\w+)(?:<.*>)? for )?(\w+)"
OWNER = re.compile(rf"pub (?:struct|enum|trait) (\w+)|{IMPL}")
CALL = re.compile(r" *(?:pub(?:\(crate\))? )?(?:const )?fn (\w+)")
CLAUSE = re.compile(r" +ensures (\w+) \{")
DEFINED = re.compile(r" *(?:abbrev pub|unfoldable pub|pub record|pub data) (\w+)")
FIELD = re.compile(r" +pub (\w+) :")


def add_code(file, found):
    """The calls of a file, with their types and without, each with its clauses; and its types."""
    owners, calls = [], []
    for line in file.read_text().splitlines():
        if owner := OWNER.match(line):
            owners = [name for name in owner.groups() if name]
            calls = owners
        elif line == "}":
            owners = []
        elif call := CALL.match(line):
            calls = [call[1], *(f"{owner}::{call[1]}" for owner in [file.stem, *owners])]
        clause = CLAUSE.match(line)
        for name in calls:
            found[name] |= {clause[1]} if clause else set()


def add_definitions(file, found):
    """The definitions of a file, each with its fields."""
    name = ""
    for line in file.read_text().splitlines():
        if defined := DEFINED.match(line):
            name = defined[1]
        field = FIELD.match(line)
        found[name] |= {field[1]} if field else set()


def crates():
    """What each crate has."""
    each = {}
    for folder in sorted((TOP / "crates").iterdir()):
        found = each[folder.name] = defaultdict(set)
        for file in sorted(folder.glob("src/*.rt")):
            add_code(file, found)
        for file in sorted(folder.glob("specs/*.antt")):
            add_definitions(file, found)
    return each


def named(text):
    """Names with their clauses, of which either may be none."""
    for part in re.split(r"[;()]", text):
        names, clauses, turned = [], [], False
        for name, clause, turns in TOKEN.findall(part):
            if clauses and bool(clause) == turned:
                yield names, clauses
                names, clauses, turned = [], [], False
            if name:
                names.append(name)
            else:
                clauses.append(clause)
                turned = bool(turns) and not names
        yield names, clauses


def clauses_of(name, owner, places):
    """The clauses or fields of a name, where it stands first; a run's are those of `Ran`."""
    keys = f"{owner}::{name}", name
    found = [place[key] for place in places for key in keys if key in place]
    runs = places[0]["Ran"] if name.startswith("run_") else set()
    return found[0] | runs if found else None


def faults(promise, crate, each):
    """What a promise of a crate names that is not there."""
    owner, places = "", [each[crate], *each.values()]
    for names, clauses in named(promise.partition(" —")[2]):
        for name in names:
            owner = name.rpartition("::")[0] or owner
            has = clauses_of(name, owner, places)
            if has is None and name not in each:
                yield name
            elif has is not None:
                yield from (f"{name} · {clause}" for clause in clauses if clause not in has)
        if not names:
            fields = set().union(*each[crate].values())
            yield from (clause for clause in clauses if clause not in fields)


def promises(crates_named):
    """Each promise, with its crate: those of the document, and then those of the crates' heads."""
    _, *sections = SECTION.split((TOP / "docs/PROMISES.md").read_text())
    for crate, section in zip(sections[::2], sections[1::2]):
        for promise in PROMISE.findall(section.partition("\n## ")[0]):
            yield crate, promise
    for crate in crates_named:
        library = TOP / "crates" / crate / "src/lib.rt"
        head = "".join(HEAD.findall(library.read_text())) if library.is_file() else ""
        for promise in PROMISE.findall(head):
            yield crate, promise


def check(tally):
    """The promises of each crate."""
    each = crates()
    for crate, promise in promises(each):
        missing = ", ".join(faults(promise, crate, each))
        told = missing and f"not there: {missing}\n{promise}"
        tally.check(f"a promise of {crate}", told)
