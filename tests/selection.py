"""What two clients of a link selected, by examples/selection: their own views at a moment. One is a
babeld (view-c.txt), and one a BIRD (view-e.txt); three servers announce to both. And what `select`
writes of random captures: what the plain program does."""

import ipaddress
import pathlib
import re
import subprocess

import selections

SELECTION = pathlib.Path(__file__).resolve().parent.parent / "examples/selection"
ADDRESS = "fe80::5eff:fe00:69{}"
SERVERS = [ipaddress.ip_address(ADDRESS.format(n)) for n in ("01", "03", "05")]
# Each client's view, its address, and the next hops of the servers' routes of IPv4.
CLIENTS = {"view-c.txt": ADDRESS.format("07"), "view-e.txt": ADDRESS.format("09")}
HOPS = {f"192.0.2.{n}": server for n, server in enumerate(SERVERS, 1)}
STATES = {"*": "selected", "+": "feasible", " ": "unfeasible"}
NUMBER = r"(\d+)"
# How many random captures.
RANDOM, RANDOM_LONG = 50, 1_000
ROW = re.compile(
    r"(?P<dst>\S+) from (?P<src>\S+) via (?P<hop>\S+) id \S+ seqno \d+ metric (?P<metric>\d+)"
    r" by (?P<sender>\S+) cost (?P<cost>\d+) total (?P<total>\d+) (?P<state>\w+)( \d+ \d+)?"
)


def view_of(name):
    text = (SELECTION / name).read_text()
    moment, text = text.split("\n", 1)
    return moment.removeprefix("# "), text


def key_of(dst, src=None):
    dst = ipaddress.ip_network(dst)
    return dst, ipaddress.ip_network(src or ("::/0" if dst.version == 6 else "0.0.0.0/0"))


def sender_of(hop):
    return HOPS[hop] if hop in HOPS else ipaddress.ip_address(hop)


def babeld_rows(text):
    """Of each key and server the metric and the total, and whether the route is installed."""
    route = re.compile(
        rf"^(\S+) from (\S+) metric {NUMBER} .*refmetric {NUMBER} .* neigh (\S+).* \((\w+)\)$", re.M
    )
    for dst, src, total, metric, sender, state in route.findall(text):
        if (sender := ipaddress.ip_address(sender)) in SERVERS:
            yield (*key_of(dst, src), sender), (int(metric), int(total), state == "installed")


def bird_rows(text):
    """Of each key and server the total, and the flag."""
    routes = text.split("# birdc show babel routes")[1].split("# birdc show route all")[0]
    route = re.compile(
        rf"^(\S+)(?: from (\S+))? +(\S+) +lan +{NUMBER} ([*+ ]) +\d+ +[0-9.]+$", re.M
    )
    for dst, src, hop, total, flag in route.findall(routes):
        if hop.startswith(("192.0.2.", "fe80::")) and sender_of(hop) in SERVERS:
            yield (*key_of(dst, src), sender_of(hop)), (int(total), STATES[flag])


def costs_of(text):
    """What the links to the servers cost the client."""
    babeld = r"^Neighbour (\S+) .* txcost (\d+) "
    bird = r"^(fe80\S+) +lan +(\d+) "
    found = re.findall(babeld, text, re.M) or re.findall(bird, text, re.M)
    costs = {ipaddress.ip_address(sender): int(cost) for sender, cost in found}
    return {sender: costs[sender] for sender in SERVERS}


def selected(program, client, moment):
    """The rows of the servers that the program prints, but for keys that the client originates, of
    which its view has no other route."""
    words = ["select", "--at", client, "--until", f"@{moment}", SELECTION / "lan.pcap"]
    ran = subprocess.run([*program, *words], capture_output=True, text=True, timeout=600)
    if ran.returncode:
        raise ValueError(ran.stderr)
    rows = [ROW.fullmatch(line) for line in ran.stdout.splitlines()]
    own = {(row["dst"], row["src"]) for row in rows if row["state"] == "own"}
    for row in rows:
        sender = ipaddress.ip_address(row["sender"])
        if sender in SERVERS and (row["dst"], row["src"]) not in own:
            yield (*key_of(row["dst"], row["src"]), sender), row


def differing(program, name):
    """The rows in which the program and a client's view differ, and how many there are."""
    moment, text = view_of(name)
    rows = dict(selected(program, CLIENTS[name], moment))
    costs = {key[2]: int(row["cost"]) for key, row in rows.items()}
    if name == "view-c.txt":
        theirs = dict(babeld_rows(text))
        ours = {
            key: (int(row["metric"]), int(row["total"]), row["state"] == "selected")
            for key, row in rows.items()
        }
    else:
        theirs = dict(bird_rows(text))
        ours = {key: (int(row["total"]), row["state"]) for key, row in rows.items()}
    lines = [
        f"{key}: {ours.get(key)}, not {theirs.get(key)}"
        for key in {**ours, **theirs}
        if ours.get(key) != theirs.get(key)
    ]
    if costs != costs_of(text):
        lines.append(f"costs {costs}, not {costs_of(text)}")
    return lines, len(theirs)


def check(program, tally, long):
    """Each route of the servers has the state and the total that the client's view has."""
    for name in CLIENTS:
        lines, rows = differing([program], name)
        lines += [] if rows >= 69 else [f"only {rows} rows"]
        tally.check(f"what {name} selects", "\n".join(lines))
    runs = selections.checked(program, RANDOM_LONG if long else RANDOM, 1)
    problems = [problem for _, problem in runs if problem]
    tally.check("select of random captures", "\n".join(problems))
