"""Each allocation refused in turn: of the program over program.txt and links.txt, of `events` over
events.txt, of the tests of libraries, in the long form over the dumps of routers.

refuse.c is loaded into a process and refuses its Nth allocation, for N = 1, 2, .. until none is
refused. The program must print what it prints otherwise, or `out of memory` alone, with status 5;
`key` prints that of one of its files, and of the others what it prints otherwise; `events` prints
it after the first of its lines. A test must pass, or fail with the text that it has for a refusal
that was answered.
"""

import concurrent.futures
import os
import pathlib
import re
import shlex
import subprocess
import tempfile
from dataclasses import dataclass
from typing import Callable

import golden
import transcript
from checks import TOP, built_program, need

OUT_OF_MEMORY = ["! out of memory\n? 5\n", "! other: out of memory\n? 5\n"]
# What the tests named so fail with where a refusal was answered as such.
TESTS = "refused_memory"
CRATE = "babel_library_tests"
BUILT = TOP / f"crates/{CRATE}/out/{CRATE}_tests"
TEST_REFUSED = re.compile(
    rb"memory was refused, and Memory answered|error: AllocError|error: OutOfMemory"
)
# Words with one of these are the shell's, and not the program's alone.
OF_SHELL = re.compile(r"[|&;<>$`(){}*?\\]")


@dataclass
class Case:
    """A process, and whether a run of it is right, an allocation of which was refused or not."""

    name: str
    words: list
    folder: pathlib.Path
    is_right: Callable


def build_refuser(folder):
    need("cc", "it has to build tests/refuse.c")
    refuser = folder / "refuse.so"
    subprocess.run(
        ["cc", "-O", "-shared", "-fPIC", "-o", refuser, TOP / "tests/refuse.c"], check=True
    )
    return refuser


def run_refused(case, refuser, number):
    """A run whose allocation of this number is refused, and whether there was such a one."""
    reader, writer = os.pipe()
    environment = {
        **os.environ, "LD_PRELOAD": str(refuser), "REFUSE": str(number), "REFUSED_TO": str(writer)
    }
    how = {
        "cwd": case.folder, "env": environment, "pass_fds": [writer], "stdin": subprocess.DEVNULL
    }
    run = subprocess.run(case.words, capture_output=True, timeout=transcript.SECONDS, **how)
    os.close(writer)
    with open(reader, "rb") as told:
        return run, told.read() != b""


def refuse_each(case, refuser):
    """How many allocations were refused in turn, and what was wrong of the last."""
    number = 0
    while True:
        run, was_refused = run_refused(case, refuser, number + 1)
        number += was_refused
        if not case.is_right(run, was_refused):
            printed = transcript.printed(run)[:2_000]
            return number, f"with refused allocation {number} it prints\n{printed}"
        if not was_refused:
            return number, "" if number else "no allocation could be refused"


def answers(known):
    """A judge of runs of the program that are to print this."""

    def is_right(run, was_refused):
        printed = transcript.printed(run)
        return printed == known or was_refused and printed in OUT_OF_MEMORY

    return is_right


def keys(known):
    """A judge of runs of `key` that are to print this."""
    is_answer, lines = answers(known), set(known.splitlines())

    def is_right(run, was_refused):
        printed = transcript.printed(run).splitlines()
        refused = [line for line in printed if re.fullmatch("! .+: out of memory", line)]
        others = set(printed) - {*refused, "? 5"}
        of_one = was_refused and run.returncode == 5 and len(refused) == 1 and others <= lines
        return of_one or is_answer(run, was_refused)

    return is_right


def events(known):
    """A judge of runs of `events` that are to print this, or the first lines of it and the first of
    the notes, which are said at once."""
    is_answer, (all_lines, all_notes) = answers(known), parted(known)

    def is_right(run, was_refused):
        begun, told, rest = transcript.printed(run).partition(OUT_OF_MEMORY[0])
        lines, notes = parted(begun)
        is_begun = all_lines.startswith(lines) and all_notes.startswith(notes)
        is_cut = was_refused and told and not rest and is_begun and transcript.is_whole(lines)
        return is_answer(run, was_refused) or is_cut

    return is_right


def parted(printed):
    """The lines of standard output, and those of standard error."""
    lines = printed.splitlines(keepends=True)
    errors = [line for line in lines if line.startswith("! ")]
    return "".join(line for line in lines if not line.startswith("! ")), "".join(errors)


JUDGES = {"key": keys, "events": events}


def is_right_test(run, was_refused):
    return (
        run.returncode == 0
        or was_refused
        and TEST_REFUSED.search(run.stdout + run.stderr) is not None
    )


def program_cases(program, folder):
    """The commands of program.txt and links.txt that are words of the program alone, and `events`
    of events.txt, which has dumps of the other files, too."""
    transcript.link_examples(folder)
    for name in "program", "time", "hold", "events", "links":
        dumps, steps = transcript.read(TOP / f"tests/{name}.txt")
        transcript.put(dumps, folder)
        for each in steps:
            words = [] if OF_SHELL.search(each.command) else shlex.split(each.command)[1:]
            if words[:1] == ["events"] or name in ("program", "links") and words:
                judge = JUDGES.get(words[0], answers)(each.expected)
                yield Case(f"{each.place}: {each.command}", [program, *words], folder, judge)


def dump_cases(program, folder):
    """The commands of the golden files. What the program prints without a refusal is what the
    routers' part judges."""
    golden.put_dumps(folder)
    for _, commands in golden.files():
        for command in commands:
            words = [program, *command.split()]
            known = transcript.printed(subprocess.run(words, cwd=folder, capture_output=True))
            yield Case(command, words, folder, answers(known))


def is_current():
    """The tests were built after the last change of a source."""
    sources = TOP.glob("crates/*/src/**/*.rt")
    return BUILT.is_file() and all(
        source.stat().st_mtime < BUILT.stat().st_mtime for source in sources
    )


def test_cases(folder):
    """The tests of refused memory."""
    listed = subprocess.run([BUILT, "--list"], check=True, capture_output=True, text=True).stdout
    for name in re.findall(rf"^(\S+::{TESTS}_\w+): test$", listed, re.MULTILINE):
        yield Case(f"{CRATE}: {name}", [BUILT, name], folder, is_right_test)


def cases(program, folder, tally, long):
    yield from program_cases(program, folder)
    what = f"the tests of {CRATE}"
    why = "they are not built, or older than the sources; ./check gate builds them"
    if is_current():
        yield from test_cases(folder)
    elif long:
        tally.check(what, why)
    else:
        print(f"not run: {what}: {why}")
    if long:
        yield from dump_cases(program, folder)


def check(tally, long):
    program = built_program()
    pools = concurrent.futures.ThreadPoolExecutor(os.cpu_count())
    with tempfile.TemporaryDirectory() as folder, pools as pool:
        folder = pathlib.Path(folder)
        refuser = build_refuser(folder)
        tried = [
            (case, pool.submit(refuse_each, case, refuser))
            for case in cases(program, folder, tally, long)
        ]
        refusals = 0
        for case, trial in tried:
            number, problem = trial.result()
            refusals += number
            tally.check(case.name, problem)
        print(f"{refusals} refused allocations in {len(tried)} commands and tests")
