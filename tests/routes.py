"""Pairs of tables made at random: their routes, beside a definition in Python."""

import concurrent.futures
import ipaddress
import json
import os
import random
import struct
import subprocess

from checks import TOP

EXAMPLES = TOP / "examples/routes"
BIRD = ["--quiet", "--from", "fe80::5eff:fe00:df01"]
SENDER = "fe80::1"
PAIRS = 1_000
PREFIXES = {
    4: ["0.0.0.0/0", "10.0.0.0/8", "10.0.0.0/9", "10.128.0.0/9", "192.0.2.1/32"],
    6: ["::/0", "2001:db8::/32", "2001:db8::/48", "2001:db8:1::/48", "2001:db8::1/128"],
}
HOPS = {4: ["192.0.2.1", "192.0.2.2"], 6: ["fe80::1", "fe80::2"]}
FIELDS = ["next_hop", "router_id", "seqno", "metric"]


def table(rng, via_v6):
    """Routes by destination and source, or None for one that is retracted. Those of IPv4 may have
    next hops of IPv6, too."""
    rows = {}
    for _ in range(rng.randrange(12)):
        family = rng.choice((4, 6))
        key = tuple(ipaddress.ip_network(rng.choice(PREFIXES[family])) for _ in range(2))
        numbers = (rng.choice(of) for of in ((1, 2), (7, 8), (0, 96)))
        hops = HOPS[4] + HOPS[6] if via_v6 and family == 4 else HOPS[family]
        route = rng.choice(hops), *numbers
        rows[key] = rng.choice((None, route, route, route))
    return rows


def octets_of(prefix):
    return prefix.network_address.packed[: (prefix.prefixlen + 7) // 8]


def tlv(kind, *parts):
    body = b"".join(parts)
    return bytes((kind, len(body))) + body


def dump(rows):
    """A packet for each row: RFC 8966, 4.2, 4.6.7 to 4.6.9; RFC 9079, 7.1; RFC 9229, 2.1."""
    packets = b""
    for (dst, src), route in rows.items():
        hop, router, seqno, metric = route or (HOPS[dst.version][0], 1, 0, 65_535)
        hop = ipaddress.ip_address(hop)
        encoding = bytes(({(4, 4): 1, (6, 6): 2, (4, 6): 4}[dst.version, hop.version],))
        body = tlv(6, b"\0\0", struct.pack("!Q", router))
        body += tlv(7, bytes((1 if hop.version == 4 else 2,)), b"\0", hop.packed)
        fixed = struct.pack("!BBBHHH", 0, dst.prefixlen, 0, 1_600, seqno, metric)
        source = tlv(128, bytes((src.prefixlen,)), octets_of(src)) if src.prefixlen else b""
        body += tlv(8, encoding, fixed, octets_of(dst), source)
        packets += struct.pack("!BBH", 42, 2, len(body)) + body
    return packets


def order(key):
    return [(prefix.version, int(prefix.network_address), prefix.prefixlen) for prefix in key]


def answer(route, ignored):
    if route is None:
        return {"unreachable": True}
    hop, router, seqno, metric = route
    values = ipaddress.ip_address(hop), f"{router:016x}", seqno, metric
    return {
        name: None if name in ignored else value for name, value in zip(FIELDS, values)
    }


def held(rows, hold, ignored):
    return {key: answer(r, ignored) for key, r in rows.items() if hold or r is not None}


def read(found):
    """An object of the program, with addresses and prefixes for their texts."""
    key = tuple(ipaddress.ip_network(found[name]) for name in ("destination", "source"))
    answers = [found[name] for name in ("left", "right", "answer") if name in found]
    for one in answers:
        if one and one.get("next_hop") is not None:
            one["next_hop"] = ipaddress.ip_address(one["next_hop"])
    return key, *answers


def key_of(row):
    """The order of a row's key, of a line of `pairs --routes`."""
    dst, _, src = row.split()[:3]
    return order((ipaddress.ip_network(dst), ipaddress.ip_network(src)))


def applied(rows, changes):
    """The rows without those of - and with those of +."""
    gone, new = ({change[1:] for change in changes if change[0] == mark} for mark in "-+")
    return sorted({*rows} - gone | new, key=key_of)


def is_diff(text, files, rows, others, differing):
    """Whether the text is that of these differences, in their order, and turns the rows of one dump
    into those of the other."""
    gone = sum(right is None for _, _, right in differing)
    new = sum(left is None for _, left, _ in differing)
    changed = len(differing) - gone - new
    *lines, counts = text.splitlines()
    heads, changes = lines[:2], lines[2:]
    return (
        heads == [f"--- {files[0]} fe80:0:0:0:0:0:0:1", f"+++ {files[1]} fe80:0:0:0:0:0:0:1"]
        and changes == sorted(changes, key=lambda each: (key_of(each[1:]), each[0] == "+"))
        and applied(rows, changes) == others
        and len(changes) == gone + new + 2 * changed
        and counts
        == f"{gone} gone, {new} new, {changed} changed, {len(rows) - gone - changed} alike"
    )


def wrong_of(program, folder, turn):
    """What the program says of a pair of tables that the definition does not."""
    rng = random.Random(turn)
    via_v6 = rng.choice(([], ["--v4-via-v6"]))
    one, other = table(rng, via_v6), table(rng, via_v6)
    if rng.randrange(2):
        other = {**one, **dict(list(other.items())[:2])}
    files = [folder / f"{side}-{turn}.dump" for side in ("one", "other")]
    for file, rows in zip(files, (one, other)):
        file.write_bytes(dump(rows))
    ignored = [name for name in FIELDS if rng.randrange(4) == 0]
    hold = rng.choice(([], ["--hold"]))
    view = ["--ignore", ",".join(ignored).replace("_", "-")] if ignored else []
    words = ["--quiet", "--from", SENDER, *hold, *via_v6, *view]

    def run(command, *more):
        of = "--stat" if command == "diff" else "--routes"
        line = [program, command, of, *words, *more]
        done = subprocess.run(line, capture_output=True, check=False)
        return done.returncode, done.stdout

    def objects(command, *more):
        status, lines = run(command, "--json", *more)
        return status, [read(json.loads(line)) for line in lines.splitlines() if b'":' in line]

    left, right = (held(rows, hold, ignored) for rows in (one, other))
    keys = sorted({*left, *right}, key=order)
    differing = [
        (key, left.get(key), right.get(key)) for key in keys if left.get(key) != right.get(key)
    ]
    status = 1 if differing else 0
    rows = [(key, left[key]) for key in sorted(left, key=order)]
    listed = (1, differing) if differing else (0, [])
    octets = [run("normalise", file)[1] for file in files]
    texts = [run("pairs", file)[1].decode().splitlines() for file in files]
    changes, diff = run("diff", *files)
    (folder / f"again-{turn}.dump").write_bytes(octets[0])
    again = folder / f"again-{turn}.dump"
    same = {"same": True}
    found = [
        differing and objects("compare", "--all", *files) != listed,
        differing and objects("compare", *files) != (1, differing[:1]),
        not differing and json.loads(run("compare", "--json", *files)[1]) != same,
        run("compare", "--count", *files) != (status, b"differences %d\n" % len(differing)),
        objects("pairs", files[0]) != (0, rows),
        run("pairs", "--count", files[0]) != (0, b"rows %d\n" % len(rows)),
        (octets[0] == octets[1]) != (not differing),
        run("normalise", again)[1] != octets[0],
        len(octets[0]) > 83 * len(rows),
        changes != status or not differing and diff != b"",
        differing and not is_diff(diff.decode(), files, *texts, differing),
    ]
    for file in (*files, again):
        file.unlink()
    return "".join(f"pair {turn}: {place}\n" for place, is_wrong in enumerate(found) if is_wrong)


def rows_of(program, file):
    """The rows that `show` prints, by destination and source."""
    shown = [program, "show", *BIRD, file]
    done = subprocess.run(shown, capture_output=True, text=True, check=True)
    lines = [line.split(" via ") for line in done.stdout.splitlines() if " via " in line]
    return dict(lines)


def check_bird(program, tally):
    """A route that is lost, one from another source prefix, and one with another metric."""
    bird = EXAMPLES / "bird.dump"
    rows = rows_of(program, bird)
    for name in "bird-missing", "bird-source", "bird-metric":
        file = EXAMPLES / f"{name}.dump"
        others = rows_of(program, file)
        count = sum(rows.get(key) != others.get(key) for key in {*rows, *others})
        words = [program, "compare", "--routes", "--count", *BIRD, bird, file]
        done = subprocess.run(words, capture_output=True, check=False)
        expected = 1, b"differences %d\n" % count
        wrong = "" if (done.returncode, done.stdout) == expected else f"{done}, not {expected}"
        tally.check(f"the routes of {name}", wrong)


def check(program, folder, tally):
    check_bird(program, tally)
    with concurrent.futures.ThreadPoolExecutor(os.cpu_count()) as pool:
        wrong = pool.map(lambda turn: wrong_of(program, folder, turn), range(PAIRS))
        tally.check(f"the routes of {PAIRS} pairs of tables", "".join(wrong))
