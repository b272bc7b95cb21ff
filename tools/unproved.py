"""Answers as babel-dump does, by `rt try`: its code before any proof, with checks as it runs.

    python3 tools/unproved.py WORDS..

The kit compiles the code anew each time, and runs it in a new folder, over copies of files that it
is given. Its own lines are left out. Where it has no answer of the program's, the status is 126,
with which the program never ends.
"""

import contextlib
import os
import pathlib
import re
import shutil
import signal
import stat
import subprocess
import sys
import tempfile

from options import FLAGS

TOP = pathlib.Path(__file__).resolve().parent.parent
CRATE = TOP / "crates/babel_dump_program"
PROGRAM = TOP / "build/babel-dump"

# The program's statuses where a device failed, and where the pipe was closed; no answer.
FAILED, CLOSED_PIPE, NO_ANSWER = 4, 141, 126

# `rt try` takes no more octets of standard input.
MOST_INPUT = 64 << 20

# The names that `rt try` has for itself in the program's folder.
TAKEN = {"program", "stdin", "stdout", "stderr"}

# Its last lines where the program ended, after all that the program wrote on standard error.
ENDED = re.compile(
    rb"^((interpreter|checked|races): .*\n)+run=ended status=(?P<status>\d+) .*proved=no\n\Z",
    re.MULTILINE,
)


class Stop(Exception):
    """Why there is no answer."""


def write(stream, octets):
    with open(stream, "wb", closefd=False) as file:
        file.write(octets)


def tell(text):
    """Writes on standard error, if it is open."""
    with contextlib.suppress(OSError):
        write(2, text)


def failed(what, error):
    """Says that a device failed, as the program does."""
    tell(f"{what} failed\nhint: {error.strerror} (os error {error.errno})\n".encode())
    return FAILED


def reads_standard_input(words):
    """Whether the words name standard input: by a -, or by no file after the command."""
    if not words or words[0].startswith("-") or words[0] == "help" or {"-h", "--help"} & {*words}:
        return False
    files, rest = [], iter(words[1:])
    for word in rest:
        option, equals, value = word.partition("=")
        if not word.startswith("--"):
            files.append(word)
        elif word not in FLAGS:
            value = value if equals else next(rest, "")
            if option == "--each" and value == "-":
                return True
    return not files or "-" in files


def given_input(words):
    """All of standard input, if the program reads it: `rt try` would not wait for a slow writer."""
    if not reads_standard_input(words):
        return b""
    with open(0, "rb", closefd=False) as stream:
        given = stream.read(MOST_INPUT + 1)
    if len(given) > MOST_INPUT:
        raise Stop("standard input is longer than the 64 MiB that `rt try` takes; name a file")
    return given


def placed(word, room, data):
    """The word that names, in the program's folder, what this one names here.

    What has to be put there for that is added to data.
    """
    if word.startswith("--") and "=" in word:
        option, value = word.split("=", 1)
        return f"{option}={placed(value, room, data)}"
    if not os.access(word, os.R_OK):
        return word
    file = os.path.realpath(word)
    if stat.S_ISFIFO(os.stat(word).st_mode):
        file = f"{room}/pipe-{len(os.listdir(room))}"
        with open(word, "rb") as pipe, open(file, "wb") as copy:
            shutil.copyfileobj(pipe, copy)
    parts = word.split("/")
    if ".." in parts or "=" in word or parts[0] == "" or parts[0] in TAKEN:
        return file
    # A folder is made there for a file in it.
    data.append(f"{word}/-=/dev/null" if os.path.isdir(word) else f"{word}={file}")
    return word


def tried(words, data, stdin, room):
    """What `rt try` writes on standard output, and on standard error."""
    options = [part for each in data for part in ("--data", each)]
    streams = {"stdin": stdin, "stdout": subprocess.PIPE, "stderr": subprocess.PIPE}
    where = {"cwd": CRATE, "env": {**os.environ, "TMPDIR": room}}
    with subprocess.Popen(["rt", "try", *options, "--", *words], **streams, **where) as run:
        try:
            return run.communicate()
        except BaseException:
            # It then ends the program, too.
            run.terminate()
            raise


def build_time():
    """How long a build of the proved program takes, in words."""
    return re.search(r'(?m)^takes="(.*)"$', (TOP / "tools/proved.sh").read_text())[1]


def answer(words):
    """The program's status, after what it writes."""
    try:
        given = given_input(words)
    except OSError as error:
        return failed("read", error)
    with tempfile.TemporaryDirectory(prefix="babel-dump-") as room:
        with tempfile.TemporaryFile(dir=room) as stdin:
            stdin.write(given)
            stdin.seek(0)
            data = []
            words = [placed(word, room, data) for word in words]
            output, said = tried(words, data, stdin, room)
    ended = ENDED.search(said)
    if ended is None:
        if b": no-answer: the program wrote more than " in said:
            raise Stop("the output is longer than the 1 MiB that `rt try` passes on")
        tell(said)
        raise Stop("`rt try` has no answer of the program's, as it says above")
    try:
        write(1, output)
    except BrokenPipeError:
        return CLOSED_PIPE
    except OSError as error:
        return failed("write", error)
    errors = re.sub(rb"\A(rt: .*\n)+", b"", said[: ended.start()])
    # After an output without an end of line the kit writes that end, on standard error.
    if errors != b"\n":
        tell(errors)
    return int(ended["status"])


def main(words):
    for each in signal.SIGHUP, signal.SIGINT, signal.SIGTERM:
        signal.signal(each, lambda number, _: sys.exit(128 + number))
    state = "older than its sources" if PROGRAM.exists() else "not built yet"
    tell(
        f"babel-dump: the proved program is {state}; `rt try` runs the code before any proof, each"
        " time in one to three minutes; ./install or ./check makes the proved one, once, in"
        f" {build_time()}\n".encode()
    )
    try:
        return answer(words)
    except Stop as why:
        tell(f"babel-dump: {why}\n".encode())
        return NO_ANSWER


if __name__ == "__main__":
    sys.exit(main(sys.argv[1:]))
