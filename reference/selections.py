#!/usr/bin/env python3
"""Runs a program over small random captures of one or two links, and compares what `select` writes
with what a slow program has from the definitions: select_routes.py.

    selections.py PROGRAM [--captures N] [--seed N]

In each capture few routers announce and retract few keys again and again, with seqnos that wrap,
metrics that are near each other, and IHUs for one, for all and for none that is there, with
Intervals of all kinds. Exits 1 where the program differs. The same seed makes the same captures.
"""

import argparse
import collections
import concurrent.futures
import ipaddress
import os
import pathlib
import random
import struct
import subprocess
import sys

import select_routes
from moments import reader

sys.path.append(str(pathlib.Path(__file__).resolve().parent.parent / "tests"))
import capture_files as made  # noqa: E402

ROUTERS = [f"192.0.2.{number}" for number in (1, 2, 3, 9)]
INTERVALS = 0, 0, 100, 400, 6_000, 20_000
METRICS = 0, 50, 96, 96, 146, 192, 196, 65_000, 65_535
RXCOSTS = 0, 96, 100, 256, 300, 65_535
SEQNOS = 1, 1, 2, 32_768, 65_535
STEPS = 0, 0, 1, 2, 2, 6, 120, 200
HALF = made.SECOND // 2


def tlv(kind, form, *fields):
    body = struct.pack(form, *fields)
    return bytes((kind, len(body))) + body


def ihu(rng):
    named = rng.choice((None, None, *ROUTERS))
    fixed = tlv(5, ">BBHH", int(named is not None), 0, rng.choice(RXCOSTS), rng.choice(INTERVALS))
    address = ipaddress.ip_address(named).packed if named else b""
    return bytes((5, 6 + len(address))) + fixed[2:] + address


def update(rng):
    interval, seqno, metric = map(rng.choice, (INTERVALS, SEQNOS, METRICS))
    prefix = bytes((rng.choice((10, 11, 12)), 1))[: rng.choice((1, 1, 2))]
    body = struct.pack(">BBBBHHH", 1, 0, 8 * len(prefix), 0, interval, seqno, metric) + prefix
    router_id = bytes((2, 0, 0, 0, 0, 0, 0, rng.choice((1, 2, 3))))
    return tlv(6, ">H8s", 0, router_id) + bytes((8, len(body))) + body


def packet(rng):
    body = b"".join(ihu(rng) for _ in range(rng.randrange(3)))
    body += b"".join(update(rng) for _ in range(rng.choice((0, 1, 2, 4))))
    return b"\x2a\2" + struct.pack(">H", len(body)) + body


def capture(rng):
    """A capture, and the time that it spans."""
    records, time, links = [], 0, rng.choice((1, 1, 2))
    for _ in range(rng.choice((5, 12, 25, 40))):
        time += rng.choice(STEPS) * HALF
        to = rng.choice((*[made.GROUP[4]] * 4, *ROUTERS))
        datagram = made.ip(rng.choice(ROUTERS), made.udp(packet(rng)), to=to)
        records.append(made.Record(made.ethernet(datagram), rng.randrange(links), time=time))
    octets = made.section("little")
    for _ in range(links):
        octets += made.interface(1, "little", options=made.counted(9, None, "little"))
    for each in records:
        octets += made.enhanced(each, "little", time=each.time)
    return octets, time


def words_of(rng, span):
    """The words of a run."""
    words = ["--at", rng.choice(ROUTERS[-1:] * 3 + ROUTERS)]
    words += ["--at", rng.choice(ROUTERS)] if rng.randrange(8) == 0 else []
    words += ["--interface", rng.choice("01")] if rng.randrange(4) == 0 else []
    words += ["--expiry", rng.choice(("0.5", "1", "10", "1000"))] if rng.randrange(2) else []
    later = rng.choice((0, 1, 7, 200, 359, 360, -span // HALF // 2))
    moment = span + later * HALF
    words += ["--until", f"+{moment // 10**9}.{moment % 10**9:09}"] if rng.randrange(2) else []
    words += ["--etx"] if rng.randrange(3) == 0 else []
    for _ in range(rng.choice((0, 0, 1, 2))):
        words += ["--cost", f"{rng.choice(ROUTERS)}={rng.choice((1, 96, 65_534, 65_535))}"]
    to = rng.choice(("10.1.1.1", "11.0.0.1", "12.1.0.1", "13.0.0.1"))
    words += ["--to", to] if rng.randrange(3) == 0 else []
    return words + (["--json"] if rng.randrange(3) == 0 else [])


def answered(program, words, octets):
    """What a run answers, but for its hints."""
    done = subprocess.run([program, "select", *words, "-"], input=octets, capture_output=True)
    errors = [line for line in done.stderr.decode().splitlines() if not line.startswith("hint: ")]
    errors = tuple(reader.without_absence(line) for line in errors)
    return reader.Answer(done.returncode, done.stdout, errors)


def checked(program, captures, seed):
    """For each run over so many captures: its status, and how it differs, if it does."""

    def check(turn):
        rng = random.Random(f"{seed} {turn}")
        octets, span = capture(rng)
        found = []
        for words in (words_of(rng, span) for _ in range(4)):
            wanted = select_routes.answer_of(words, octets)
            given = answered(program, words, octets)
            problem = f"capture {turn}, {' '.join(words)}: {given} in place of {wanted}"
            found.append((wanted.status, "" if given == wanted else problem))
        return found

    with concurrent.futures.ThreadPoolExecutor(os.cpu_count()) as pool:
        for found in pool.map(check, range(captures)):
            yield from found


def main():
    parser = argparse.ArgumentParser(
        description=__doc__, formatter_class=argparse.RawDescriptionHelpFormatter
    )
    parser.add_argument("program", type=pathlib.Path)
    parser.add_argument("--captures", type=int, default=1_000)
    parser.add_argument("--seed", type=int, default=1)
    options = parser.parse_args()
    runs = list(checked(options.program.resolve(), options.captures, options.seed))
    problems = [problem for _, problem in runs if problem]
    print("".join(f"{problem}\n" for problem in problems), end="")
    for status, count in sorted(collections.Counter(status for status, _ in runs).items()):
        print(f"select: status {status} in {count} runs")
    print(f"{len(problems)} of {len(runs)} runs differ from the definitions")
    return 1 if problems else 0


if __name__ == "__main__":
    sys.exit(main())
