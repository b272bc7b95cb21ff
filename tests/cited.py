"""The files of definitions that the public contracts name: those of the functions and of the types
that a crate's src/lib.rt hands out, and its laws."""

import re

from checks import TOP
from promises import CALL, OWNER

USE = re.compile(r"ghost use Rattle\.(babel_\w+)\.specs\.(\w+)\.\{([^}]*)\}")
EXPORT = re.compile(r"pub use ([\w:]+)::\{?([\w,\s]+)\}?;")
# A contract ends where the body begins, or at the semicolon of a trait's function.
END = re.compile(r" *\{\}?|.*;")
WORD = re.compile(r"[^\s(){}\[\],.;&]+")


def handed_out(crate):
    """The names that a crate hands out, each with its module."""
    library = crate / "src/lib.rt"
    found = EXPORT.findall(library.read_text()) if library.is_file() else []
    return {name.strip(): module for module, names in found for name in names.split(",")}


def imported(text):
    """The names that a file of code has for definitions, each with the file of these."""
    found = USE.findall(text)
    names = ((name.split(" as ")[-1], file) for *file, names in found for name in names.split(","))
    return {name.strip(): tuple(file) for name, file in names}


def contracts(file, public):
    """The lines of the contracts of the public functions of a file."""
    owners, by_trait, inside = set(), False, False
    for line in file.read_text().splitlines():
        if owner := OWNER.match(line):
            owners = {name for name in owner.groups() if name}
            by_trait = line.startswith("pub trait") or owner[2] is not None
        elif line == "}":
            owners, by_trait = set(), False
        elif call := CALL.match(line):
            home = file.stem in (public.get(call[1]), "laws")
            named = owners & set(public) if owners else home
            inside = named and (by_trait or "pub fn" in line) and line[-1] != "{"
        if inside:
            yield line
            inside = not END.fullmatch(line)


def cited(crate):
    """The files of definitions that the public contracts of a crate name, each by one such name."""
    found, public = {}, handed_out(crate)
    for file in sorted(crate.glob("src/*.rt")):
        names = imported(file.read_text())
        for word in WORD.findall("\n".join(contracts(file, public))):
            if word in names:
                found.setdefault(names[word], f"{word}, in {file.relative_to(TOP)}")
    return found


def check(tally, listed):
    """Each of them is among the listed ones."""
    for crate in sorted((TOP / "crates").iterdir()):
        for file, name in cited(crate).items():
            told = "" if file in listed else f"not in docs/DEFINITIONS.md, but named: {name}\n"
            tally.check(f"the definitions {' '.join(file)} of a contract of {crate.name}", told)
