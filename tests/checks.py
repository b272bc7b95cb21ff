"""What the parts of `./check` share: where things stand, what a part needs, and what passed."""

import pathlib
import shutil
import subprocess
import sys

TOP = pathlib.Path(__file__).resolve().parent.parent
PROGRAM = TOP / "build/babel-dump"
ROUTERS = TOP / "examples/routers"
DRILL = TOP / "examples/drill"

# Whoever imports their scripts imports this module first.
sys.path += [str(ROUTERS), str(DRILL), str(ROUTERS.parent)]
sys.path += [str(TOP / "reference"), str(TOP / "tools")]


class Missing(Exception):
    """What a part needs and has not got, as a sentence for the user."""


def need(command, why):
    if shutil.which(command) is None:
        raise Missing(f"there is no command {command} on the PATH; {why}")


def built_program():
    """The proved program, which is built if it must be."""
    run = subprocess.run([TOP / "tools/proved.sh"], stdin=subprocess.DEVNULL)
    if run.returncode:
        raise Missing("the program could not be built; what its build said is above")
    return PROGRAM


class Tally:
    """Counts checks, and prints those that fail."""

    def __init__(self):
        self.passed = self.failed = 0

    def check(self, what, problem=""):
        """Counts one check, which passed where there is no problem to tell."""
        if problem:
            print(f"FAILED: {what}\n{problem}".rstrip(), flush=True)
        self.add(int(not problem), int(bool(problem)))

    def add(self, passed, failed):
        self.passed += passed
        self.failed += failed

    def __str__(self):
        return f"{self.passed} passed, {self.failed} failed"
