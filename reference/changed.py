#!/usr/bin/env python3
"""Runs a built program and the plain Rust program over dumps with octets changed at random.

    changed.py PROGRAM [--dumps N] [--seed N]

Each dump is one of examples/routers, with one to four octets changed, and in one of eight dumps the
end cut off. Both programs must write the same octets and texts and give the same status in each
run: `show`, also with `--short`, `pairs`, also with `--count`, `normalise` at some size of a
packet's body, two lookups, and `compare` with the dump as it was, also with `--all` and `--count`,
each with and without `--hold`, and with and without `--v4-via-v6`; `normalise` and `compare` with
`--routes`, too. Exits 1 where they do not. The same seed makes the same dumps. Octets are also
changed to 4, which is the address encoding of `--v4-via-v6` in many places.
"""

import argparse
import collections
import concurrent.futures
import os
import pathlib
import random
import sys
import tempfile

from plain import HERE, PLAIN, build, outcome

ROUTERS = HERE.parent / "examples" / "routers"
sys.path.append(str(ROUTERS))
from agree import SENDERS  # noqa: E402

BODIES = (128, 129, 255, 1_024, 65_535)


def changed(rng, octets):
    octets = bytearray(octets)
    for _ in range(rng.randrange(1, 5)):
        octets[rng.randrange(len(octets))] = rng.choice((0, 1, 4, 8, 128, 255, rng.randrange(256)))
    if rng.randrange(8) == 0:
        del octets[rng.randrange(len(octets)) :]
    return bytes(octets)


def runs(sender, original, dump, body):
    """The words of each run over a changed dump."""
    for mode in [], ["--hold"], ["--v4-via-v6"], ["--hold", "--v4-via-v6"]:
        sent = [*mode, "--from", sender]
        yield ["show", *sent, dump]
        yield ["show", "--short", *sent, dump]
        yield ["pairs", *sent, dump]
        yield ["pairs", "--count", *sent, dump]
        yield ["normalise", *sent, "--body", str(body), "--hex", dump]
        yield ["lookup", *sent, "--to", "10.0.0.1", "--src", "192.0.2.7", dump]
        yield ["lookup", *sent, "--to", "2001:db8::1", "--src", "2001:db8::2", dump]
        for each in [], ["--all"], ["--all", "--count"]:
            yield ["compare", *each, *sent, "--other-from", sender, dump, original]
        yield ["normalise", "--routes", *sent, "--body", str(body), dump]
        yield ["compare", "--routes", "--all", *sent, "--other-from", sender, dump, original]


def compared(program, plain, folder, dumps, seed):
    """For each run over so many changed dumps: its command, its status, and how the two programs
    differ, if they do."""

    def compare(turn):
        rng = random.Random(f"{seed} {turn}")
        name, sender = rng.choice(sorted(SENDERS.items()))
        dump, original = folder / f"changed-{turn}.dump", ROUTERS / f"{name}.dump"
        dump.write_bytes(changed(rng, original.read_bytes()))
        found = []
        for words in runs(sender, original, dump, rng.choice(BODIES)):
            ours, theirs = (outcome([side, *words]) for side in (program, plain))
            told = f"dump {turn}, {name}, {' '.join(map(str, words))}: "
            told += f"{ours[0]} {ours[2]!r}, {theirs[0]} {theirs[2]!r}"
            found.append((words[0], ours[0], "" if ours == theirs else told))
        dump.unlink()
        return found

    with concurrent.futures.ThreadPoolExecutor(os.cpu_count()) as pool:
        for found in pool.map(compare, range(dumps)):
            yield from found


def main():
    parser = argparse.ArgumentParser(
        description=__doc__, formatter_class=argparse.RawDescriptionHelpFormatter
    )
    parser.add_argument("program", type=pathlib.Path)
    parser.add_argument("--dumps", type=int, default=400)
    parser.add_argument("--seed", type=int, default=1)
    options = parser.parse_args()
    statuses, differing = collections.Counter(), 0
    with tempfile.TemporaryDirectory() as folder:
        folder = pathlib.Path(folder)
        plain = build(PLAIN, folder)
        for command, status, difference in compared(
            options.program.resolve(), plain, folder, options.dumps, options.seed
        ):
            statuses[command, status] += 1
            if difference:
                differing += 1
                print(difference)
    for (command, status), count in sorted(statuses.items()):
        print(f"{command}: status {status} in {count} runs")
    print(f"{differing} of {sum(statuses.values())} runs differ")
    return 1 if differing else 0


if __name__ == "__main__":
    sys.exit(main())
