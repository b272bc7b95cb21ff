"""The kit's gate, `rt ci`: every proof from nothing, the bodies that must be refused, the crates'
tests, a run of the program.

A wrong body in must-fail/ is tried by each gate, one in must-fail-long/ by its long form alone.
"""

import os
import pathlib
import re
import shutil
import subprocess
import tempfile
import time

from checks import PROGRAM, TOP, need

VERDICT = re.compile(r"(\d+) passed, (\d+) failed\n")
TRIED = re.compile(r"rt: must-fail (\S+): (.*)")
PROVED = re.compile(r"rt: \w+ (proved|is kept: .*)\n")
REFUSED = "refused, as it must be"
# Octets; the largest crate takes some more, all others less.
MEMORY_OF_A_PROOF = 5_000_000_000
BUILT = TOP / "crates/babel_dump_program/out/babel_dump_program"


def proofs_at_once():
    """One on each processor, and each with the memory that it takes: the gate reckons three times
    as much for the largest crate, and would try and prove nothing beside it."""
    stated = re.search(r"MemAvailable: +(\d+) kB", pathlib.Path("/proc/meminfo").read_text())
    held = int(stated[1]) * 1024 // MEMORY_OF_A_PROOF
    return max(1, min(len(os.sched_getaffinity(0)), held))


def run_gate():
    """Runs the gate, shows all that it says, and how far it is, and returns its last line and its
    status."""
    last, proved, begun = "", 0, time.monotonic()
    crates = len(re.findall(r"^\w+:", (TOP / "crates.txt").read_text(), re.MULTILINE))
    how = {"cwd": TOP, "stdout": subprocess.PIPE, "text": True, "errors": "replace"}
    how["env"] = {"RT_JOBS": str(proofs_at_once()), **os.environ}
    with subprocess.Popen(["rt", "ci"], **how) as gate:
        for last in gate.stdout:
            print(last, end="", flush=True)
            if PROVED.fullmatch(last):
                proved += 1
                minutes = round((time.monotonic() - begun) // 60)
                told = f"{proved} of {crates} crates proved, {minutes} minutes so far"
                print(f"gate: {told}", flush=True)
    return last, gate.returncode


def keep_program(begun):
    """Keeps the program that the gate proved and built. What is edited meanwhile stays newer than
    it."""
    if BUILT.is_file() and BUILT.stat().st_mtime >= begun:
        PROGRAM.parent.mkdir(exist_ok=True)
        fresh = PROGRAM.with_suffix(".fresh")
        shutil.copy(BUILT, fresh)
        os.utime(fresh, (begun, begun))
        fresh.replace(PROGRAM)


def only_long_bodies(top):
    """Puts the wrong bodies of the long form in place of the others, in a copy of the sources;
    returns how many they are."""
    for folder in top.glob("crates/*/must-fail"):
        shutil.rmtree(folder)
    for folder in top.glob("crates/*/must-fail-long"):
        folder.rename(folder.with_name("must-fail"))
    return len(list(top.glob("crates/*/must-fail/*.edit")))


def try_long_bodies(tally):
    """Tries these bodies over a copy of the sources."""
    left_out = shutil.ignore_patterns("out", "build", ".git", "__pycache__")
    with tempfile.TemporaryDirectory() as folder:
        top = pathlib.Path(folder, "sources")
        shutil.copytree(TOP, top, ignore=left_out)
        bodies = only_long_bodies(top)
        words = ["rt", "must-fail"]
        run = subprocess.run(words, cwd=top, stdout=subprocess.PIPE, text=True, errors="replace")
    tried = TRIED.findall(run.stdout)
    for name, said in tried:
        tally.check(name, "" if said.startswith(REFUSED) else said)
    if len(tried) != bodies:
        told = f"it tried {len(tried)} of {bodies} bodies, and ended with status {run.returncode}"
        tally.check("rt must-fail", told)


def wrong_texts(edit):
    """The old texts of a wrong body that do not stand once in their file."""
    code = ""
    for line in edit.read_text().splitlines():
        name, _, text = line.partition(": ")
        if name == "file":
            code = (edit.parent.parent / text).read_text()
        elif name == "old" and code.count(text) != 1:
            yield text


def check_bodies(tally):
    """The kit passes over files of other names without a word, and those of the long form are
    seldom tried."""
    folders = ["must-fail", "must-fail-long"]
    for file in (file for name in folders for file in sorted(TOP.glob(f"crates/*/{name}/*"))):
        told = "".join(f"not once in its file: {text}\n" for text in wrong_texts(file))
        if file.suffix != ".edit":
            told = "it is never tried: no .edit\n"
        tally.check(f"the wrong body {file.relative_to(TOP)}", told)


def check(tally, long):
    need("rt", "it is the Rattle kit's")
    check_bodies(tally)
    begun = time.time()
    last, status = run_gate()
    verdict = VERDICT.fullmatch(last)
    if verdict is None or (status == 0) != (verdict[2] == "0"):
        tally.check("rt ci", f"it ended with status {status} and the line {last!r}")
    else:
        tally.add(int(verdict[1]), int(verdict[2]))
    keep_program(begun)
    if long:
        try_long_bodies(tally)
