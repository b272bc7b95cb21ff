"""The plain programs of this folder: how they are built, and by what a run of one is compared."""

import pathlib
import re
import subprocess

HERE = pathlib.Path(__file__).resolve().parent
PLAIN = HERE / "limit.rs"
PLAIN_OF_CAPTURES = HERE / "capture_limit.rs"


def build(source, folder):
    target = folder / source.stem
    subprocess.run(["rustc", "-O", "--edition", "2021", "-o", target, source], check=True)
    return target


def outcome(words):
    """What a run writes and answers, but for its hints and notes, which only one of two programs
    gives."""
    run = subprocess.run(words, capture_output=True)
    return run.returncode, run.stdout, re.sub(rb"(?m)^(hint|note): .*\n", b"", run.stderr)
