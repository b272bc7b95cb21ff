"""Transcripts: commands, each with what it prints.

    # a comment
    dump NAME
        2a020019        octets of NAME.dump in hexadecimal digits; after two spaces what they mean
    $ COMMAND           which sh runs in a folder with the dumps; babel-dump is on its PATH
    what it writes on standard output
    ! what it writes on standard error
    ? its status, where that is not 0

Empty lines are no output where a command, a comment, a dump or the end of the file comes after
them.
"""

import difflib
import os
import re
import subprocess
from dataclasses import dataclass

from checks import TOP

SECONDS = 120


@dataclass
class Step:
    """A command, and what it is to print."""

    place: str
    command: str
    expected: str


def step(place, command, lines):
    while lines and not lines[-1]:
        lines.pop()
    return Step(place, command, "".join(f"{line}\n" for line in lines))


def octets(lines):
    """The octets that lines have in front of what they mean."""
    return bytes.fromhex("".join(re.split("  +", line.strip())[0] for line in lines))


def read(file):
    """The dumps of a transcript, by their names, and its steps."""
    dumps, steps, lines = {}, [], []
    for number, line in enumerate(file.read_text().splitlines(), 1):
        if line.startswith("$ "):
            lines = []
            steps.append((f"{file.name}:{number}", line[2:], lines))
        elif line.startswith("dump "):
            lines = []
            dumps[line[5:]] = lines
        elif line.startswith("#"):
            lines = []
        else:
            lines.append(line)
    return {name: octets(lines) for name, lines in dumps.items()}, [step(*each) for each in steps]


def is_whole(text):
    return not text or text.endswith("\n")


def printed(run):
    """What a run printed, as a transcript has it."""
    output, errors = (
        stream.decode(errors="backslashreplace") for stream in (run.stdout, run.stderr)
    )
    text = output if is_whole(output) else output + "(no end of line)\n"
    text += "".join(f"! {line}\n" for line in errors.splitlines())
    text += "" if is_whole(errors) else "! (no end of line)\n"
    return text + (f"? {run.returncode}\n" if run.returncode else "")


def shell(command, folder, seconds=SECONDS, **how):
    """Runs a command by sh in a folder whose folder `tools` is on the PATH."""
    environment = {**os.environ, "PATH": f"{folder / 'tools'}:{os.environ['PATH']}", "LC_ALL": "C"}
    words = ["sh", "-c", command]
    return subprocess.run(
        words, cwd=folder, env=environment, stdin=subprocess.DEVNULL, timeout=seconds, **how
    )


def difference(expected, found):
    """The lines in which two texts differ, or nothing."""
    if expected == found:
        return ""
    sides = (text.splitlines(keepends=True) for text in (expected, found))
    return "".join(difflib.unified_diff(*sides, "expected", "found", n=1))


def found(command, folder):
    """What a command prints in a folder, as a transcript has it."""
    return printed(shell(command, folder, capture_output=True))


def link(program, folder):
    """Makes a program the babel-dump of the commands in a folder."""
    (folder / "tools").mkdir()
    (folder / "tools" / "babel-dump").symlink_to(program)


def link_examples(folder):
    """Puts the examples of the repository into reach of the commands in a folder."""
    (folder / "examples").symlink_to(TOP / "examples")


def put(dumps, folder):
    for name, dump in dumps.items():
        (folder / f"{name}.dump").write_bytes(dump)


def without_notes(text):
    """What a command prints, but for the notes on what was ignored, and their hints."""
    return re.sub(r"^! (note|hint): .*\n", "", text, flags=re.MULTILINE)


def play(file, folder, tally, of_output=str):
    """Puts the dumps of a transcript into a folder, and checks of each of its steps there, in turn,
    this part of what it prints."""
    dumps, steps = read(file)
    put(dumps, folder)
    for each in steps:
        printed = of_output(found(each.command, folder))
        tally.check(f"{each.place}: {each.command}", difference(each.expected, printed))
