#!/usr/bin/env python3
"""Compares what babel-dump reads in a dump with what the neighbouring router held.

    agree.py [PROGRAM]

For each dump of this folder: the rows of `PROGRAM show --hold` (default ../../babel-dump)
against the table that the neighbouring babeld had when the capture ended: routes by destination,
source, router-id, seqno, announced metric and next hop, and unreachable rows against the
neighbour's retracted ones by destination and source. IPv4 rows with an IPv6 next hop came by
address encoding 4: with `--v4-via-v6` babel-dump has them, and without it counts them, so they are
left out then. Exits 1 where a row differs.
"""
import ipaddress
import itertools
import pathlib
import re
import subprocess
import sys

HERE = pathlib.Path(__file__).resolve().parent
SENDERS = {
    "babeld-basic-a": "fe80::5eff:fe00:c601",
    "babeld-source-specific": "fe80::5eff:fe00:aa01",
    "babeld-retract": "fe80::5eff:fe00:b901",
    "bird-sadr": "fe80::5eff:fe00:4b01",
    "frr-basic": "fe80::5eff:fe00:4a01",
    "babeld-v4-via-v6": "fe80::5eff:fe00:1a01",
}
VIEW = re.compile(
    r"(?P<dst>\S+) from (?P<src>\S+) metric \d+ \(\d+\) refmetric (?P<metric>\d+)"
    r" id (?P<id>\S+) seqno (?P<seqno>\d+)"
    r" .*neigh (?P<neigh>\S+)(?: nexthop (?P<hop>\S+))?"
)
ROW = re.compile(r"(\S+) from (\S+) (?:via (\S+) id (\S+) seqno (\d+) metric (\d+)|unreachable)")
INFINITY = 65535


def row(dst, src, hop, router_id, seqno, metric):
    key = (ipaddress.ip_network(dst), ipaddress.ip_network(src))
    if metric is None or int(metric) == INFINITY:
        return (*key, "unreachable")
    return (*key, ipaddress.ip_address(hop), router_id, int(seqno), int(metric))


def neighbour_rows(name, sender, via_v6):
    rows, unread = set(), 0
    for line in (HERE / f"{name}.view-babeld.txt").read_text().splitlines():
        m = VIEW.match(line)
        if not m or ipaddress.ip_address(m["neigh"]) != ipaddress.ip_address(sender):
            continue
        hop = m["hop"] or m["neigh"]
        families = ipaddress.ip_network(m["dst"]).version, ipaddress.ip_address(hop).version
        if families == (4, 6) and not via_v6:
            unread += 1
            continue
        rows.add(row(m["dst"], m["src"], hop, m["id"].replace(":", ""), m["seqno"], m["metric"]))
    return rows, unread


def program_rows(program, name, sender, options):
    words = [program, "show", "--hold", *options, "--from", sender, HERE / f"{name}.dump"]
    text = subprocess.run(words, check=True, capture_output=True, text=True).stdout
    return {row(*m.groups()) for line in text.splitlines() if (m := ROW.fullmatch(line))}


def main():
    program = sys.argv[1] if len(sys.argv) > 1 else str(HERE.parent.parent / "babel-dump")
    differing = 0
    for (name, sender), options in itertools.product(SENDERS.items(), ([], ["--v4-via-v6"])):
        theirs, unread = neighbour_rows(name, sender, bool(options))
        ours = program_rows(program, name, sender, options)
        alone = f"{len(ours - theirs)} only here, {len(theirs - ours)} only there, {unread} unread"
        title = " ".join([name, *options])
        print(f"{title}: {len(ours)} rows, {len(theirs)} at the neighbour, {alone}")
        for only in sorted(map(str, ours ^ theirs)):
            print("  " + only)
        differing += len(ours ^ theirs)
    return 1 if differing else 0


if __name__ == "__main__":
    sys.exit(main())
