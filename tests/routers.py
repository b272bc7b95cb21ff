"""The dumps of examples/routers: the neighbours' tables, the canonical dumps, the golden files; the
tables of a failure drill; the costs of links, and what two routers selected; and the routes of random
tables."""

import concurrent.futures
import ipaddress
import itertools
import json
import os
import pathlib
import re
import subprocess
import tempfile

import golden
import routes
import selection
import transcript
from checks import TOP, built_program

import agree
import canonical
import drill
from agree import SENDERS

SELECTION = TOP / "examples/selection"
# Of each view whose it is, and how it tells of a neighbour.
NEIGHBOURS = {
    "view-c.txt": (
        "fe80::5eff:fe00:6907",
        re.compile(r"Neighbour (?P<address>\S+) .* rxcost (?P<rxcost>\d+) txcost (?P<txcost>\d+)"),
    ),
    "view-e.txt": (
        "fe80::5eff:fe00:6909",
        re.compile(r"(?m)^(?P<address>fe80\S+) +lan +(?P<txcost>\d+) "),
    ),
}


def check_tables(program, tally):
    """The rows are those of the router that heard the packets."""
    for (name, sender), options in itertools.product(SENDERS.items(), ([], ["--v4-via-v6"])):
        theirs, _ = agree.neighbour_rows(name, sender, bool(options))
        differing = sorted(map(str, theirs ^ agree.program_rows(program, name, sender, options)))
        tally.check(f"the neighbour's table of {' '.join([name, *options])}", "\n".join(differing))


def check_drill(program, tally):
    """The rows at each moment of the drill are the listener's, but for those that are explained."""
    for options, explained in drill.EXPLAINED:
        rows, moments = found = drill.counts(drill.differing(program, options))
        problem = "" if found == explained else f"{rows} rows differ, at {moments} moments"
        tally.check(f"the listener's tables of the drill: {' '.join(['show', *options])}", problem)


def costs_of(program, router, moment):
    """What a router and each neighbour said of their link until then."""
    words = ["links", "--json", "--until", f"@{moment}", SELECTION / "lan.pcap"]
    done = subprocess.run([program, *words], check=True, capture_output=True, text=True)
    return {
        ipaddress.ip_address(link["neighbour"]): {"rxcost": link["rxcost"], "txcost": link["back"]}
        for link in map(json.loads, done.stdout.splitlines())
        if ipaddress.ip_address(link["sender"]) == ipaddress.ip_address(router)
    }


def check_links(program, tally):
    """The costs of links are those that the routers had; BIRD tells that of sending alone."""
    for view, (router, neighbour) in NEIGHBOURS.items():
        text = (SELECTION / view).read_text()
        theirs = {}
        for found in neighbour.finditer(text):
            costs = found.groupdict()
            address = ipaddress.ip_address(costs.pop("address"))
            theirs[address] = {name: int(cost) for name, cost in costs.items()}
        ours = costs_of(program, router, text.split()[1])
        is_so = theirs and theirs.keys() == ours.keys() and all(
            costs.items() <= ours[address].items() for address, costs in theirs.items()
        )
        problem = "" if is_so else f"{ours} in place of {theirs}"
        tally.check(f"the costs of links in {view}", problem)


def check_canonical(program, folder, tally):
    """The canonical dumps are normalised to themselves and answer as the dumps do."""
    cases = [
        (name, sender, mode.split())
        for name, sender in SENDERS.items()
        for mode in golden.modes(name)
    ]

    def wrong(case):
        name, sender, hold = case
        room = folder / f"{name}{''.join(hold)}"
        room.mkdir()
        return canonical.check(program, name, sender, hold, room)[1]

    with concurrent.futures.ThreadPoolExecutor(os.cpu_count()) as pool:
        for (name, _, hold), lines in zip(cases, pool.map(wrong, cases)):
            tally.check(f"the canonical dump of {' '.join([name, *hold])}", "\n".join(lines))


def check(tally, long):
    program = built_program()
    with tempfile.TemporaryDirectory() as folder:
        folder = pathlib.Path(folder)
        check_tables(program, tally)
        check_drill(program, tally)
        check_links(program, tally)
        selection.check(program, tally, long)
        check_canonical(program, folder, tally)
        routes.check(program, folder, tally)
        transcript.link(program, folder)
        golden.play(folder, tally)
        print("the golden files are of the plain program of reference/, by tests/golden.py")
