#!/usr/bin/env python3
"""Makes the golden files anew: what each command writes of each dump of examples/routers, by the
plain Rust program of reference/.

    python3 tests/golden.py

The files are transcripts, golden/DUMP.COMMAND.txt. The plain program shares no code with
babel-dump, which is not run here, so that what babel-dump is held to is never its own output.
`./check routers` holds babel-dump to the files, and `./check differential` the plain program.
"""

import pathlib
import shutil
import tempfile

import transcript
from checks import ROUTERS, TOP

from agree import SENDERS
from canonical import questions
from plain import PLAIN, build

GOLDEN = TOP / "tests/golden"
MODES = ["", " --hold"]
VIA_V6 = "babeld-v4-via-v6"
LOOKUPS = 12
# What is longer is kept by its length, its hash, and its first and its last line.
LONGEST = 40_000
BY_HASH = (
    " > whole; wc -c < whole; sha256sum < whole; (head -n 1 whole; tail -n 1 whole) | cut -c 1-200"
)


def modes(name):
    """The options with which a dump is read: address encoding 4 where it has that, too."""
    return MODES + [f"{mode} --v4-via-v6" for mode in MODES if name == VIA_V6]


def show(name, sent):
    return [f"show{mode} {sent} {name}.dump" for mode in modes(name)]


def lookup(name, sent):
    """Some of the addresses that the neighbour's table names, and some that are none of its."""
    named = questions(name)
    asked = named[:: len(named) // LOOKUPS + 1] + [
        ("203.0.113.1", "198.51.100.1"), ("3fff::1", "3fff::2")
    ]
    words = [f"--to {dst} --src {src} {name}.dump" for dst, src in asked]
    return [f"lookup{mode} {sent} {each}" for each in words for mode in modes(name)]


def pairs(name, sent):
    return [
        f"pairs{mode}{count} {sent} {name}.dump"
        for count in (" --count", "")
        for mode in modes(name)
    ]


def normalise(name, sent):
    sizes = ["", " --body 128", " --body 65535"]
    return [
        f"normalise{mode} --hex{body} {sent} {name}.dump" for body in sizes for mode in modes(name)
    ]


def compare(name, sent):
    others = [
        f"--other-from {sender} {name}.dump {other}.dump" for other, sender in SENDERS.items()
    ]
    return [f"compare{mode} {sent} {other}" for other in others for mode in modes(name)]


COMMANDS = (show, lookup, pairs, normalise, compare)


def put_dumps(folder):
    for name in SENDERS:
        shutil.copy(ROUTERS / f"{name}.dump", folder)


def golden(command, folder):
    """A command of a transcript, and what it prints."""
    printed = transcript.found(command, folder)
    if len(printed) > LONGEST:
        command += BY_HASH
        printed = transcript.found(command, folder)
    return f"$ {command}\n{printed}"


def files():
    """The name of each golden file, and the words of its commands."""
    for name, sender in SENDERS.items():
        for command in COMMANDS:
            yield f"{name}.{command.__name__}.txt", command(name, f"--from {sender}")


def play(folder, tally):
    """Holds the babel-dump of a folder to the golden files. The plain program writes no notes."""
    put_dumps(folder)
    for file, _ in files():
        transcript.play(GOLDEN / file, folder, tally, transcript.without_notes)


def main():
    GOLDEN.mkdir(exist_ok=True)
    with tempfile.TemporaryDirectory() as folder:
        folder = pathlib.Path(folder)
        transcript.link(build(PLAIN, folder), folder)
        put_dumps(folder)
        for file, commands in files():
            text = "\n".join(golden(f"babel-dump {words}", folder) for words in commands)
            (GOLDEN / file).write_text(text)


if __name__ == "__main__":
    main()
