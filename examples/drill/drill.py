#!/usr/bin/env python3
"""Compares what babel-dump has at the moments of a failure drill with what the listener held.

    drill.py [PROGRAM]

At each moment of view-times.json, for each of the two borders: the rows of `PROGRAM show` (default
../../babel-dump) of drill.pcap, without `--expiry` and with it, against the listener's own table:
routes by destination, source, router-id, seqno, announced metric and next hop. A view is written a
moment after it was asked for, so the capture is read until a tenth of a second before. Exits 1
where other numbers of rows differ than README.md explains.
"""
import ipaddress
import itertools
import json
import pathlib
import subprocess
import sys
from fractions import Fraction

HERE = pathlib.Path(__file__).resolve().parent
sys.path.append(str(HERE.parent / "routers"))
from agree import ROW, VIEW, row  # noqa: E402

BORDERS = "fe80::5eff:fe00:b401", "fe80::5eff:fe00:b403"
CAPTURE = HERE / "drill.pcap"
TIMES = json.loads((HERE / "view-times.json").read_text(), parse_float=Fraction)
BEFORE = Fraction(1, 10)
# The options, and with these how many rows differ, and at how many moments of a border.
EXPLAINED = (([], (27, 8)), (["--expiry", "3.5"], (4, 2)), (["--expiry", "6"], (1, 1)))


def held_rows(view, border):
    """The routes from a border that the listener held; a retracted one has no row."""
    found = filter(None, map(VIEW.match, (HERE / view).read_text().splitlines()))
    rows = {
        row(m["dst"], m["src"], m["hop"] or m["neigh"], m["id"].replace(":", ""), *numbers(m))
        for m in found
        if ipaddress.ip_address(m["neigh"]) == ipaddress.ip_address(border)
    }
    return {each for each in rows if each[2] != "unreachable"}


def numbers(match):
    return match["seqno"], match["metric"]


def moment(view):
    """A tenth of a second before the view, as --until takes it."""
    nanoseconds = int((TIMES[view] - BEFORE) * 10**9)
    return f"@{nanoseconds // 10**9}.{nanoseconds % 10**9:09}"


def shown_rows(program, border, until, options):
    words = [program, "show", *options, "--from", border, "--until", until, "--quiet", CAPTURE]
    text = subprocess.run(words, check=True, capture_output=True, text=True).stdout
    return {row(*m.groups()) for line in text.splitlines() if (m := ROW.fullmatch(line))}


def differing(program, options):
    """The rows that differ, for each moment of a border where some do."""
    found = {}
    for view, border in itertools.product(TIMES, BORDERS):
        rows = held_rows(view, border) ^ shown_rows(program, border, moment(view), options)
        if rows:
            found[view, border] = rows
    return found


def counts(found):
    return sum(map(len, found.values())), len(found)


def main():
    program = sys.argv[1] if len(sys.argv) > 1 else str(HERE.parent.parent / "babel-dump")
    status = 0
    for options, explained in EXPLAINED:
        found = differing(program, options)
        rows, moments = counts(found)
        status |= (rows, moments) != explained
        print(f"{' '.join(['show', *options])}: {rows} rows differ, at {moments} of 26 moments")
        for (view, border), rows_there in found.items():
            for only in sorted(map(str, rows_there)):
                print(f"  {view} {border} {only}")
    return status


if __name__ == "__main__":
    sys.exit(main())
