"""The first answers in a fresh copy of the repository, by `rt try`: those of the proved program.

Each run of `rt try` takes about two processor minutes, so there are three.
"""

import pathlib
import re
import shutil
import tempfile

import transcript
from checks import TOP, built_program, need
from program import expect
from tour import steps

SECONDS = 900
SAYS = re.compile(r"^! babel-dump: the proved program is not built yet; .*\n", re.MULTILINE)

# Two first runs at once, with a file above the folder, octets through a pipe, and a refused dump.
SENDER = "fe80::5eff:fe00:c601"
PIPED = (
    f"babel-dump extract --from {SENDER} ../examples/routers/babeld-basic-a.pcap"
    f" | head -c 1000 | babel-dump show --from {SENDER}"
)


def fresh_copy(folder):
    """The repository as a clone has it, with its files as they stand now."""
    left_out = shutil.ignore_patterns("out", "build", ".git", "__pycache__")
    return pathlib.Path(shutil.copytree(TOP, folder / "fresh", ignore=left_out))


def folder_with(program, folder):
    """A new folder whose babel-dump is this program."""
    folder.mkdir()
    transcript.link(program, folder)
    return folder


def printed(command, folder):
    return transcript.printed(transcript.shell(command, folder, SECONDS, capture_output=True))


def check_answer(tally, command, found, wanted, runs):
    """It is the wanted one, and each run says on one line that it is not the proved program."""
    tally.check(f"first: {command}", transcript.difference(wanted, SAYS.sub("", found)))
    expect(tally, f"first: {command}: the lines that say so", len(SAYS.findall(found)), runs)


def check(tally, _long):
    need("rt", "it is the Rattle kit's")
    program = built_program()
    with tempfile.TemporaryDirectory() as folder:
        folder = pathlib.Path(folder)
        fresh = fresh_copy(folder)
        first = steps(TOP / "README.md")[0]
        check_answer(tally, first.command, printed(first.command, fresh), first.expected, 1)
        transcript.link_examples(folder)
        proved = folder_with(program, folder / "proved")
        tried = folder_with(fresh / "babel-dump", folder / "tried")
        check_answer(tally, PIPED, printed(PIPED, tried), printed(PIPED, proved), 2)
