#!/usr/bin/env python3
"""Measures many lookups in one table: a proved program over read_dump and Table::lookup beside a
plain Rust one.

    lookups.py LOADS [--load NAME] [--lookups N] [--rounds N] [--scratch FOLDER]

Builds lookups/main.rt.txt as a crate of a copy of the repository in the scratch folder, and
lookups/plain.rs with rustc -O; runs the two in turn on the same pairs of addresses, and prints the
processor time of the lookups alone, least and median.
"""

import argparse
import pathlib
import random
import shutil
import statistics
import subprocess
import sys
import tempfile

from run import PLAIN, build

HERE = pathlib.Path(__file__).resolve().parent
TOP = HERE.parent
CRATES = ("babel_prefix", "babel_tlv", "babel_table")


def build_proved(scratch, dump, pairs):
    """The proved program, built in a copy of the crates that it stands on, with what their checks
    kept."""
    for crate in CRATES:
        if not (scratch / "crates" / crate).exists():
            shutil.copytree(TOP / "crates" / crate, scratch / "crates" / crate, symlinks=True)
    crate = scratch / "crates" / "lookups"
    (crate / "src").mkdir(parents=True, exist_ok=True)
    shutil.copy(HERE / "lookups" / "main.rt.txt", crate / "src" / "main.rt")
    lines = (TOP / "crates.txt").read_text().splitlines()
    kept = [line for line in lines if line.split(":")[0] in CRATES]
    (scratch / "crates.txt").write_text("\n".join([*kept, "lookups: " + " ".join(CRATES)]) + "\n")
    shutil.copy(TOP / "HANDLES", scratch / "HANDLES")
    subprocess.run(
        ["rt", "run", "--", dump, pairs], cwd=crate, check=True, stdout=subprocess.DEVNULL
    )
    return crate / "out" / "lookups"


def write_pairs(rows, target, count):
    """Half of the destinations lie in some row's prefix, the others and all sources anywhere."""
    choose = random.Random(9079)
    prefixes = []
    for line in rows.splitlines():
        if " from " in line and ":" not in line:
            addr, length = line.split(" ", 1)[0].split("/")
            prefixes.append(
                (int.from_bytes(bytes(map(int, addr.split("."))), "big"), 32 - int(length))
            )
    with open(target, "wb") as out:
        for number in range(count):
            bits, free = choose.choice(prefixes) if number % 2 else (0, 32)
            out.write((bits | choose.getrandbits(32) >> 32 - free).to_bytes(4, "big"))
            out.write(choose.getrandbits(32).to_bytes(4, "big"))


def run(words):
    *answers, micros = (
        subprocess.run(words, capture_output=True, text=True, check=True).stdout.split()
    )
    return answers, int(micros) / 1e6


def measure(options, scratch):
    dump, rows, pairs = options.loads.resolve() / options.load, scratch / "rows", scratch / "pairs"
    text = subprocess.run(
        [build(PLAIN, scratch), "show", "--from", "192.0.2.1", dump],
        capture_output=True, text=True, check=True).stdout
    rows.write_text(text)
    write_pairs(text, pairs, options.lookups)
    proved = [build_proved(scratch, dump, pairs), dump, pairs]
    plain = [build(HERE / "lookups" / "plain.rs", scratch), rows, pairs]
    same, times = True, ([], [])
    for _ in range(options.rounds):
        (answers, time), (answers_2, time_2) = run(proved), run(plain)
        same &= answers == answers_2
        times[0].append(time)
        times[1].append(time_2)
    (low, mid), (low_2, mid_2) = ((min(side), statistics.median(side)) for side in times)
    print(f"{options.lookups} lookups in {answers[0]} rows, {answers[1]} found"
          + ("" if same else "; THE TWO FOUND DIFFERENT ROUTES"))
    times = f"proved {low:.4f} / {mid:.4f} s, plain {low_2:.4f} / {mid_2:.4f} s"
    print(f"{times}, ratio {low / low_2:.2f} / {mid / mid_2:.2f}")
    return 0 if same else 1


def main():
    parser = argparse.ArgumentParser(
        description=__doc__, formatter_class=argparse.RawDescriptionHelpFormatter
    )
    parser.add_argument("loads", type=pathlib.Path)
    parser.add_argument("--load", default="ipv4.dump")
    parser.add_argument("--lookups", type=int, default=10_000)
    parser.add_argument("--rounds", type=int, default=9)
    parser.add_argument(
        "--scratch", type=pathlib.Path, help="kept, so that the next run builds nothing anew"
    )
    options = parser.parse_args()
    if options.scratch:
        options.scratch.mkdir(parents=True, exist_ok=True)
        return measure(options, options.scratch.resolve())
    with tempfile.TemporaryDirectory() as folder:
        return measure(options, pathlib.Path(folder))


if __name__ == "__main__":
    sys.exit(main())
