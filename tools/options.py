#!/usr/bin/env python3
"""The commands and options of babel-dump, as its source has them, printed into documents.

    python3 tools/options.py

prints anew in docs/: the OPTIONS of the manual page, of which it keeps what stands below a line
`.\\" more`, and the completions of bash, zsh and fish, below the line that names this file.
"""

import collections
import pathlib
import re
import textwrap

TOP = pathlib.Path(__file__).resolve().parent.parent
SOURCE = TOP / "crates/babel_dump/src"
MANUAL = TOP / "docs/babel-dump.1"
WRAP = {"width": 100, "break_long_words": False, "break_on_hyphens": False}

CONSTANT = re.compile(r"(?:const|static) (\w+): [^=]+ = (?!after_help!)")
TOKEN = re.compile(r'//.*|"(?:[^"\\]|\\[\s\S])*"|\w+(?:::\w+)*|\.\.|[^\s\w]')

# What is printed ends at the one in the manual page, and begins after the other in completions.
MORE = '.\\" more\n'
PRINTED = "# Printed by tools/options.py.\n"

# What shells complete of an option's value; for bash that stands in its file.
FIELDS = "next-hop router-id seqno metric"
ZSH = {
    "from": "_babel_dump_senders 1",
    "other-from": "_babel_dump_senders 2",
    "interface": "_babel_dump_places 1",
    "other-interface": "_babel_dump_places 2",
    "each": "_files",
    "names": "_files",
    "and": "_files",
    "ignore": f"_values -s , field {FIELDS}",
}
FISH = {
    "from": "(__babel_dump_senders 1)",
    "other-from": "(__babel_dump_senders 2)",
    "interface": "(__babel_dump_places 1)",
    "other-interface": "(__babel_dump_places 2)",
    "ignore": f"(__fish_append , {FIELDS})",
}


def values(tokens, end, constants):
    """Those up to a sign, with commas between them."""
    found = []
    while tokens[0] != end:
        found.append(value(tokens, constants))
        if tokens[0] == ",":
            tokens.popleft()
    tokens.popleft()
    return found


def fields(tokens, constants):
    """Those of a struct, by their names."""
    found = {}
    while (name := tokens.popleft()) != "}":
        if name == "..":
            found = {**value(tokens, constants), **found}
        elif name != ",":
            tokens.popleft()
            found[name] = value(tokens, constants)
    return found


def value(tokens, constants):
    """What the next tokens are: a text, a list, a struct, a variant with its values, a name."""
    token = tokens.popleft()
    if token == "&":
        return value(tokens, constants)
    if token == "[":
        return values(tokens, "]", constants)
    if token.startswith('"'):
        return re.sub(r"\\(?:\n\s*|(.))", r"\1", token[1:-1])
    if tokens[0] == "{":
        tokens.popleft()
        return fields(tokens, constants)
    if tokens[0] == "(":
        tokens.popleft()
        return [token, *values(tokens, ")", constants)]
    if token in constants:
        return value(collections.deque(constants[token]), constants)
    return token


def table(name, constants):
    """The rows of a file of the source: those of its lists, which are its statics. Its constants
    are added to those that it may name."""
    text = (SOURCE / f"{name}.rt").read_text()
    for found in CONSTANT.finditer(text):
        tokens = TOKEN.findall(text, found.end())
        constants[found[1]] = [token for token in tokens if not token.startswith("//")]
    lists = re.findall(r"static (\w+):", text)
    return [row for each in lists for row in value(collections.deque([each, ";"]), constants)]


class Row:
    """An option, or an argument, as some commands have it."""

    def __init__(self, found):
        takes = found["takes"] if isinstance(found["takes"], list) else [found["takes"]]
        self.kind, self.takes = takes[0].removeprefix("Takes::"), takes[1:]
        self.id, self.help = found["id"], found["help"]
        self.commands, self.conflicts = found["commands"], found["conflicts"]
        self.is_required = found["is_required"] == "true"
        self.is_argument = self.kind in ("File", "Files")

    def about(self):
        """What its help says first."""
        return re.split(r"; | \[", self.help)[0]


CONSTANTS = {}
COMMANDS = {each["name"]: each["about"] for each in table("commands", CONSTANTS)}
ROWS = [Row(each) for each in table("options", CONSTANTS)]
OPTIONS = [row for row in ROWS if not row.is_argument]
# The options, each once; of these, that no word follows.
NAMES = list(dict.fromkeys(f"--{row.id}" for row in OPTIONS))
FLAGS = {f"--{row.id}" for row in OPTIONS if row.kind == "Nothing"} | {"--help", "--version"}
VALUED = [name for name in NAMES if name not in FLAGS]


def rows_of(command):
    return [row for row in ROWS if command in row.commands]


def merged(rows):
    """Each help text with its commands, in their order."""
    found = collections.defaultdict(set)
    for row in rows:
        found[row.help] |= {*row.commands}
    commands = [([name for name in COMMANDS if name in each], text) for text, each in found.items()]
    return sorted(commands, key=lambda each: [*COMMANDS].index(each[0][0]))


def roff(text):
    """A help text as the manual page has it: options in bold, the names of values in italics."""
    names = "|".join({row.takes[0] for row in ROWS if row.takes})
    text = re.sub(r"--[a-z][a-z0-9-]*", r"\\fB\g<0>\\fP", text)
    text = re.sub(rf"\b({names})\b", lambda name: f"\\fI{name[0].lower()}\\fP", text)
    return text.replace("-", "\\-")


def label(commands):
    """Which commands these are, if not all."""
    others = [name for name in COMMANDS if name not in commands]
    if not others:
        return ""
    front, names = ("all but ", others) if len(others) <= 3 else ("", commands)
    shown = ", ".join(f"\\fB{name}\\fP" for name in names)
    return f"({front}{shown}) "


def entry(name, kept):
    """What the manual page has of an option."""
    rows = [row for row in OPTIONS if row.id == name]
    head = roff(f"--{name}").removeprefix("\\fB").removesuffix("\\fP")
    takes = rows[0].takes
    lines = [f".BI {head}\\~ {takes[0].lower()}" if takes else f".B {head}"]
    texts = merged(rows)
    for commands, text in texts:
        lines += textwrap.wrap(label(commands) + roff(text) + ".", **WRAP)
        lines += [".br"] if len(texts) > 1 else []
    return "\n".join(lines) + "\n" + kept


def manual(page):
    """The manual page with its options as they are to be."""
    front, options, end = re.split(r"(?<=^\.SH OPTIONS\n)|(?=^\.SH EXIT STATUS)", page, flags=re.M)
    first, *entries = options.split(".TP\n")
    kept = {}
    for each in entries:
        found = re.match(r"\.BI? \\-\\-([\w\\-]+)", each)
        _, more, text = each.partition(MORE)
        kept[found[1].replace("\\", "") if found else each] = more + text
    names = [name for name in kept if f"--{name}" in NAMES]
    names += [name[2:] for name in NAMES if name[2:] not in names]
    ends = [name for name in kept if name.startswith(".")]
    shown = [entry(name, kept.get(name, "")) for name in names] + ends
    return front + ".TP\n".join([first, *shown]) + end


def quoted(text):
    return "'" + text.replace("'", "'\\''") + "'"


def wrapped(text, indent=""):
    """Words of a shell, on as many lines as they need."""
    how = {**WRAP, "width": 98, "subsequent_indent": indent}
    return " \\\n".join(textwrap.wrap(text, **how))


def bash():
    lines = [
        wrapped(f'_babel_dump_names="{" ".join(COMMANDS)} help --help --version"'),
        "",
        "# The options that a word follows.",
        wrapped(f'_babel_dump_valued="{" ".join(VALUED)}"'),
        "",
        "# The options of a command.",
        "_babel_dump_options() {",
        "    case $1 in",
    ]
    for command in COMMANDS:
        names = [f"--{row.id}" for row in rows_of(command) if not row.is_argument]
        words = f"        {command}) echo {' '.join(names)} --help ;;"
        lines.append(wrapped(words, " " * 12))
    return "\n".join([*lines, "    esac", "}", "", "complete -F _babel_dump babel-dump", ""])


def zsh_spec(row):
    """An option or an argument as `_arguments` takes it."""
    if row.is_argument:
        front = {"File": "" if row.is_required else ":", "Files": "*"}[row.kind]
        return quoted(f"{front}:{row.id}:_files")
    about = re.sub(r"[][:]", r"\\\g<0>", row.about())
    front = f"({' '.join(f'--{name}' for name in row.conflicts)})" if row.conflicts else ""
    front += "*" if row.kind in ("Words", "Following") else ""
    if not row.takes:
        return quoted(f"{front}--{row.id}[{about}]")
    words = f"({' '.join(row.takes[1])})" if row.kind == "OneOf" else ZSH.get(row.id, " ")
    return quoted(f"{front}--{row.id}[{about}]:{row.takes[0].lower()}:{words}")


def zsh():
    indent = {"initial_indent": " " * 8, "subsequent_indent": " " * 8}
    lines = ["# Whether a word follows an option.", "_babel_dump_is_valued() {"]
    lines += ["    local -a valued=(", *textwrap.wrap(" ".join(VALUED), **indent, **WRAP), "    )"]
    lines += ["    (( $valued[(Ie)$1] ))", "}", ""]
    lines += ["_babel_dump_commands() {", "    local -a commands=("]
    lines += ["        " + quoted(f"{name}:{about}") for name, about in COMMANDS.items()]
    lines += ["        'help:Print help'", "    )", "    _describe command commands", "}", ""]
    lines += ["_babel_dump_arguments() {", "    local -a options"]
    lines += ["    [[ $1 == help ]] && _babel_dump_commands && return"]
    for row in ROWS:
        lines.append(f"    [[ $1 == ({'|'.join(row.commands)}) ]] &&")
        lines.append(f"        options+=({zsh_spec(row)})")
    lines += ["    (( $#options )) && _arguments $options '--help[Print help]'", "}", ""]
    return "\n".join([*lines, '_babel-dump "$@"', ""])


def fish():
    lines = ["# Whether a word follows an option.", "function __babel_dump_is_valued"]
    lines += [wrapped(f"    contains -- $argv[1] {' '.join(VALUED)}", " " * 8), "end", ""]
    seen = f"not __fish_seen_subcommand_from {' '.join(COMMANDS)} help"
    lines.append(f"complete -c babel-dump -n {quoted(seen)} -f")
    once = "complete -c babel-dump -n __fish_use_subcommand"
    lines += [f"{once} -l help -d 'Print help'", f"{once} -l version -d 'Print the version'"]
    for name, about in {**COMMANDS, "help": "Print help"}.items():
        lines.append(f"{once} -a {name} \\\n    -d {quoted(about)}")
    lines.append(f"__babel_dump_option help -f -a '{' '.join(COMMANDS)}'")
    lines += ["", f"__babel_dump_option '{' '.join(COMMANDS)}' -l help -d 'Print help'"]
    for row in OPTIONS:
        is_file = row.id in ("each", "names", "and")
        more = "" if row.kind == "Nothing" else " -r" if is_file else " -x"
        words = " ".join(row.takes[1]) if row.kind == "OneOf" else FISH.get(row.id)
        more += f" -a '{words}'" if words else ""
        front = f"__babel_dump_option '{' '.join(row.commands)}' -l {row.id}{more}"
        lines.append(f"{front} \\\n    -d {quoted(row.about())}")
    return "\n".join([*lines, ""])


COMPLETIONS = {"babel-dump.bash": bash, "_babel-dump": zsh, "babel-dump.fish": fish}


def printed(path):
    """A document as it is to be."""
    text = path.read_text()
    if path == MANUAL:
        return manual(text)
    front, line, _ = text.partition(PRINTED)
    return front + line + COMPLETIONS[path.name]()


DOCUMENTS = [MANUAL, *(MANUAL.parent / name for name in COMPLETIONS)]

if __name__ == "__main__":
    for each in DOCUMENTS:
        each.write_text(printed(each))
