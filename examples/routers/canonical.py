#!/usr/bin/env python3
"""Checks the canonical dump of each dump here.

    canonical.py [PROGRAM]

For each dump of this folder, with and without `--hold` (PROGRAM is ../../babel-dump unless it is
given): the canonical dump, read with several senders, is normalised to itself; the dump compares
as `same` with itself and with its canonical dump; both have the same canonical pairs; and `lookup`
answers the same in both at the addresses of the neighbour's table: for each destination and source
prefix there its first and its last address. Exits 1 where one of these does not hold.
"""
import ipaddress
import pathlib
import subprocess
import sys
import tempfile

from agree import HERE, SENDERS, VIEW

ANY_SENDERS = ["192.0.2.1", "198.51.100.7", "fe80::1"]


def run(program, *words):
    """The status and the octets that the program writes."""
    done = subprocess.run([program, *map(str, words)], capture_output=True)
    if done.returncode > 1:
        sys.exit(f"{' '.join(map(str, words))}: {done.stderr.decode()}")
    return done.returncode, done.stdout


def ends(prefix):
    """The first and the last address of a prefix."""
    net = ipaddress.ip_network(prefix)
    return [net.network_address, net.broadcast_address]


def questions(name):
    """Destinations and sources to look up: what the neighbour's table names."""
    asked = set()
    for line in (HERE / f"{name}.view-babeld.txt").read_text().splitlines():
        if m := VIEW.match(line):
            asked |= {(dst, src) for dst in ends(m["dst"]) for src in ends(m["src"])}
    return sorted(asked, key=lambda pair: (pair[0].version, *pair))


def check(program, name, sender, hold, folder):
    """What was seen of one dump in one mode, and what does not hold of it."""
    dump = HERE / f"{name}.dump"
    canon = pathlib.Path(folder) / f"{name}.canonical"
    octets = run(program, "normalise", *hold, "--from", sender, dump)[1]
    canon.write_bytes(octets)
    wrong = []
    for any_sender in ANY_SENDERS:
        if run(program, "normalise", *hold, "--from", any_sender, canon)[1] != octets:
            wrong.append(f"not normalised to itself from {any_sender}")
        words = ["compare", *hold, "--from", sender, "--other-from", any_sender, dump, canon]
        if run(program, *words) != (0, b"same\n"):
            wrong.append(f"differs from its canonical dump from {any_sender}")
    if run(program, "compare", *hold, "--from", sender, "--other-from", sender, dump, dump) != (
        0, b"same\n"
    ):
        wrong.append("differs from itself")
    pairs = run(program, "pairs", *hold, "--from", sender, dump)[1]
    if run(program, "pairs", *hold, "--from", "::1", canon)[1] != pairs:
        wrong.append("other pairs in its canonical dump")
    counts = {}
    for dst, src in questions(name):
        words = ["--to", dst, "--src", src]
        answer = run(program, "lookup", *hold, "--from", sender, *words, dump)
        if run(program, "lookup", *hold, "--from", "::1", *words, canon) != answer:
            wrong.append(f"another answer for {dst} from {src}")
        kind = answer[1].split()[0].decode()
        counts[kind] = counts.get(kind, 0) + 1
    lookups = ", ".join(f"{counts[kind]} {kind}" for kind in sorted(counts))
    return f"{len(octets)} octets, {len(pairs.splitlines())} pairs, lookups: {lookups}", wrong


def main():
    program = sys.argv[1] if len(sys.argv) > 1 else str(HERE.parent.parent / "babel-dump")
    failed = False
    with tempfile.TemporaryDirectory() as folder:
        for name, sender in SENDERS.items():
            for hold in [], ["--hold"]:
                seen, wrong = check(program, name, sender, hold, folder)
                verdict = "WRONG" if wrong else "ok"
                print(f"{' '.join([name, *hold])}: {seen}: {verdict}")
                for line in wrong:
                    print("  " + line)
                failed = failed or bool(wrong)
    return 1 if failed else 0


if __name__ == "__main__":
    sys.exit(main())
