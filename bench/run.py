#!/usr/bin/env python3
"""Measures a built program against the limit, a plain Rust program, alternately, on the loads of
loads.py.

    run.py PROGRAM LOADS [--rounds N] [--only WORD] [--plain SOURCE]

It takes those cases whose load is there: the dumps of loads.py, and the captures of captures.py.

For each command and load it first compares what the two write, then runs them in turn, and prints
the minimum and median of processor time (user and system), the peak memory, and the program's
figures divided by the limit's; and the microseconds of the program for each TLV read (show,
lookup), row or canonical pair, whichever are more, or KiB of a capture. In each round the limit
runs before the program and after it, and the program's time is divided by the mean of those two, so
that a machine whose speed changes from run to run changes it for both; the ratio of times is the
median of the rounds'. Microseconds are given as they are, and as they would be on a machine on
which the limit takes 20 ms to normalise the load ipv4, which runs once more in each round: so they
can be compared from one machine to another. The last column says whether both ratios are at most 3,
of `senders` and `extract` 2; of times below 2 ms and of memories below 8 MB it does not ask.
"""

import argparse
import itertools
import pathlib
import statistics
import subprocess
import sys
import tempfile

HERE = pathlib.Path(__file__).resolve().parent
sys.path.append(str(HERE.parent / "reference"))
from plain import PLAIN, PLAIN_OF_CAPTURES, build, outcome  # noqa: E402

MOST = 3
MOST_OVER_CAPTURES = 2
REFERENCE = "ipv4"
REFERENCE_SECONDS = 0.020
FROM = ["--from", "192.0.2.1"]
LOOKUP = ["--to", "10.0.0.1", "--src", "192.0.2.7"]
LOOKUP_IPV6 = ["--to", "2001:db8::1", "--src", "2001:db8::2"]
IPV4 = ("ipv4", "sources", "many-sources", "merging", "merging-16", "hosts-ipv4")
IPV6 = ("ipv6", "hosts-ipv6", "hosts-from-hosts", "deep", "default-over-hosts")
READINGS = (
    "updates", "rising", "shuffled", "turns", "turns-shuffled", "random", "wildcards", "passing"
)
SHARED = ("shared", "shared-131k")
COMPARED = (
    ("ipv4", "ipv4-other"),
    ("ipv6", "ipv6"),
    ("sources", "sources"),
    ("shared", "shared-other"),
    ("shared-131k", "shared-131k-other"),
    ("shared-split", "shared-other"),
    ("shared-131k-split", "shared-131k-other"),
    ("hosts-ipv6", "hosts-ipv6"),
    ("hosts-from-hosts", "hosts-from-hosts-other"),
    ("deep", "deep-other"),
    ("apart", "apart-other"),
    ("default-over-hosts", "default-over-hosts"),
    ("chains-64", "chains-64-other"),
    ("chains-256", "chains-256-other"),
)
ASKED = ("nested", "nested-sources", "apart")
COUNTED = (
    "restate-16k",
    "restate-64k",
    "hidden-16k",
    "hidden-64k",
    "router-ids-16k",
    "router-ids-64k",
    "router-ids-256k",
)
MANY_DIFFERENCES = (
    "network-or-hosts-1k",
    "network-or-hosts-2k",
    "network-or-hosts-4k",
    "deepest-16k",
    "deepest-64k",
)
SIZES = (1, 4, 16, 64, 256)
CAPTURES = (
    "frames.pcap",
    "one-sender.pcap",
    "small-packets.pcapng",
    "many-senders.pcap",
    "fragments.pcap",
    "zeros.pcap",
)
TIMED = tuple(
    f"{name}.pcap"
    for name in (
        "refreshed",
        "changing",
        "expiring",
        "shortening",
        "retracted",
        "many-tables",
        "padded",
        "said-again",
        "wildcards",
        "used-again",
        "jumping",
    )
)
OF_EACH = ("one-packet-each.pcap", "rows-each.pcap")
LAST = "ffff:ffff:ffff:ffff:ffff:ffff:ffff:ffff"
EXPIRY = ["--expiry", "3.5"]
OF_ONE = ["--quiet", "--from", "fe80::1"]


def cases():
    """Each load with the words of each command that is measured on it."""
    for load in READINGS:
        yield load, ["lookup", *FROM, *LOOKUP]
        for command in ("show", "normalise"):
            yield load, [command, *FROM]
    yield "flooding", ["lookup", *FROM, *LOOKUP_IPV6]
    yield "flooding", ["normalise", *FROM]
    for load in ("one-tag", "one-tag-replaced"):
        for command in ("show", "normalise"):
            yield load, [command, *FROM]
    yield "again", ["show", *FROM]
    for load in COUNTED:
        yield load, ["pairs", "--count", *FROM]
    for load in ASKED:
        yield load, ["lookup", "--each", f"{load}.pairs", *FROM]
    for load in SHARED:
        for command in (["pairs"], ["pairs", "--count"], ["normalise"]):
            yield load, [*command, *FROM]
    for loads, lookup in ((IPV4, LOOKUP), (IPV6, LOOKUP_IPV6)):
        for load in loads:
            yield load, ["lookup", *FROM, *lookup]
            for command in (["show"], ["pairs"], ["pairs", "--count"], ["normalise"]):
                yield load, [*command, *FROM]
            yield load, ["normalise", "--routes", *FROM]
    for command in "lookup", "show", "normalise":
        rest = LOOKUP if command == "lookup" else []
        yield "ipv4-via-v6", [command, "--v4-via-v6", *FROM, *rest]
    for load, other in COMPARED:
        for command in ["compare"], ["compare", "--all"], ["compare", "--routes"], ["diff"]:
            yield load, [*command, *FROM, "--other-from", "192.0.2.1", f"{other}.dump"]
    for load in MANY_DIFFERENCES:
        words = [*FROM, "--other-from", "192.0.2.1", f"{load}-other.dump"]
        yield load, ["compare", "--all", "--count", *words]
    for kind in ("growth", "growth-hosts"):
        for size in SIZES:
            for command in ("show", "normalise"):
                yield f"{kind}-{size}k", [command, *FROM]
    for capture in CAPTURES:
        yield capture, ["senders"]
        yield capture, ["extract", "--from", "fe80::1"]
    for capture in TIMED:
        pair = ["--to", LAST, "--src", LAST] if capture == "padded.pcap" else LOOKUP
        for options in [], EXPIRY, [*EXPIRY, "--json"], [*EXPIRY, *pair]:
            yield capture, ["events", "--quiet", *options]
        for options in [], EXPIRY, [*EXPIRY, "--hold"]:
            yield capture, ["show", *options, *OF_ONE]
    for capture in OF_EACH:
        for options in [], ["--origins"]:
            yield capture, ["show", "--quiet", *options]


def is_capture(load):
    return load in (*CAPTURES, *TIMED, *OF_EACH)


def file_of(load, loads):
    return loads / (load if is_capture(load) else f"{load}.dump")


def measure(measurer, words):
    """Seconds of processor time and megabytes of peak memory of one run."""
    run = subprocess.run([measurer, *words], capture_output=True, text=True, check=True)
    time, memory, _ = run.stdout.split()
    return int(time) / 1e6, int(memory) / 1024


def words_of(program, load, command, loads):
    first, *rest = command
    dump = file_of(load, loads)
    if rest[:1] == ["--each"]:
        rest[1] = loads / rest[1]
    if first in ("compare", "diff"):
        *rest, other = rest
        return [program, first, *rest, dump, loads / other]
    return [program, first, *rest, dump]


def numbers_of(plain, words):
    """The numbers that end the lines of a text of the plain program."""
    run = subprocess.run([plain, *words], capture_output=True, text=True)
    return {
        line.split()[0]: int(line.split()[1])
        for line in run.stdout.splitlines()[-20:]
        if len(line.split()) == 2
    }


def size_of(plain, load, command, loads, sizes):
    """How much there is to do: KiB of a capture, TLVs of a dump that is read, rows, or else the
    rows or pairs, whichever are more."""
    if is_capture(load):
        return file_of(load, loads).stat().st_size / 1024
    if load not in sizes:
        option = [word for word in command if word == "--v4-via-v6"]
        dump = [*option, *FROM, loads / f"{load}.dump"]
        read = numbers_of(plain, ["show", *dump])
        rows = outcome([plain, "show", *dump])[1].count(b" from ")
        pairs = numbers_of(plain, ["pairs", "--count", *dump]).get("pairs", 0)
        sizes[load] = {"tlvs": read["tlvs"], "rows": rows, "most": max(rows, pairs)}
    size = sizes[load]
    if command[0] in ("show", "lookup"):
        return size["tlvs"]
    if command[0] in ("compare", "diff"):
        return 2 * size["rows"]
    return size["rows" if "--routes" in command else "most"]


def rounds_of(measurer, sides, reference, count):
    """In each round the times of the program, of the limit before and after it, and of the
    reference; and both peak memories."""
    times, memories = [], ([], [])
    for _ in range(count):
        runs = [measure(measurer, words) for words in (sides[1], sides[0], sides[1], reference)]
        (before, plain_memory), (time, memory), (after, _), (standard, _) = runs
        times.append((time, before, after, standard))
        memories[0].append(memory)
        memories[1].append(plain_memory)
    return times, max(memories[0]), max(memories[1])


def verdict(most, ratio, time, memory, plain_memory):
    far = []
    if ratio > most and time > 0.002:
        far.append("time")
    if memory > most * plain_memory and memory > 8:
        far.append("memory")
    return " and ".join(far) or "yes"


def main():
    parser = argparse.ArgumentParser(
        description=__doc__, formatter_class=argparse.RawDescriptionHelpFormatter
    )
    parser.add_argument("program", type=pathlib.Path)
    parser.add_argument("loads", type=pathlib.Path)
    parser.add_argument("--rounds", type=int, default=9)
    parser.add_argument("--only", default="", help="the cases whose load or command has this word")
    parser.add_argument(
        "--plain", type=pathlib.Path, default=PLAIN, help="the source of the plain program"
    )
    options = parser.parse_args()
    program = options.program.resolve()
    differing, within, measured, sizes = 0, 0, 0, {}
    with tempfile.TemporaryDirectory() as folder:
        folder = pathlib.Path(folder)
        plain, plain_of_captures = build(options.plain, folder), build(PLAIN_OF_CAPTURES, folder)
        measurer = build(HERE / "measure.rs", folder)
        reference = words_of(plain, REFERENCE, ["normalise", *FROM], options.loads)
        print(
            "| load | command | program min / median ms | limit min / median ms | time "
            "| program MB | limit MB | memory | µs each | scaled | within |"
        )
        print("|---|---|---|---|---|---|---|---|---|---|---|")
        for load, command in cases():
            name = " ".join(itertools.takewhile(lambda word: word != "--from", command))
            if load in TIMED:
                name = " ".join(word for word in command if word not in (*OF_ONE, *LOOKUP[1::2]))
            if options.only not in f"{load} {name}" or not file_of(load, options.loads).exists():
                continue
            beside = plain_of_captures if is_capture(load) else plain
            sides = [words_of(side, load, command, options.loads) for side in (program, beside)]
            same = outcome(sides[0]) == outcome(sides[1])
            times, memory, memory_2 = rounds_of(measurer, sides, reference, options.rounds)
            own = [time for time, *_ in times]
            plain_own = [time for _, *both, _ in times for time in both]
            ratio = statistics.median(
                2 * time / (before + after) for time, before, after, _ in times
            )
            standards = statistics.median(time / standard for time, *_, standard in times)
            scaled = standards * REFERENCE_SECONDS
            low, mid = min(own), statistics.median(own)
            low_2, mid_2 = min(plain_own), statistics.median(plain_own)
            size = size_of(plain, load, command, options.loads, sizes)
            most = MOST_OVER_CAPTURES if load in CAPTURES else MOST
            answer = verdict(most, ratio, mid, memory, memory_2)
            differing += not same
            within += answer == "yes"
            measured += 1
            print(
                f"| {load} | {name} | {low * 1e3:.1f} / {mid * 1e3:.1f} "
                f"| {low_2 * 1e3:.1f} / {mid_2 * 1e3:.1f} "
                f"| {ratio:.2f} | {memory:.1f} | {memory_2:.1f} | {memory / memory_2:.2f} "
                f"| {mid * 1e6 / max(size, 1):.2f} | {scaled * 1e6 / max(size, 1):.2f} | {answer} |"
                + ("" if same else " THE TWO WRITE DIFFERENT TEXTS"),
                flush=True,
            )
    most = f"{MOST} times the limit, over captures {MOST_OVER_CAPTURES} times"
    print(f"{within} of {measured} cases within {most}")
    return 1 if differing else 0


if __name__ == "__main__":
    sys.exit(main())
