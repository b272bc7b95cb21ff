#!/usr/bin/env python3
"""What the routers in a capture say of their links: a slow program, from RFC 8966 and
docs/OUTPUT.md, for nothing but to be read.

    links.py [--since T] [--until T] [--expiry K] [--interface P] [--json] [--quiet] [--accept-cut]
        CAPTURE

It writes what `babel-dump links` writes, but for hints.
"""

import argparse
import ipaddress
import pathlib
import sys

import moments
from moments import Answer, Fault, big, items_in, reader

HELLO, IHU = 4, 5
UNICAST, MANDATORY, INFINITY = 0x80, 128, 0xFFFF
# How many octets an address has in an IHU, and which come before it.
ADDRESSES = {0: (0, b""), 1: (4, b""), 2: (16, b""), 3: (8, moments.LINK_LOCAL)}
# After more steps than this a sender has begun anew.
MOST_STEPS = 16


def tlvs_of(packet):
    """The TLVs of a packet; none where one runs past its end."""
    tlvs = [(kind, body) for _, kind, body in items_in(packet[4:])]
    return [] if any(kind is None for kind, _ in tlvs) else tlvs


def is_read(octets):
    """The sub-TLVs can be read: none runs past the end, and none is mandatory."""
    return all(kind is not None and kind < MANDATORY for _, kind, _ in items_in(octets))


def is_of_one(address):
    return not address.is_multicast and address != ipaddress.IPv4Address("255.255.255.255")


def ihu_of(body, destination):
    """Whom an IHU names, if it does, its Rxcost and its Interval: RFC 8966, 4.6.6."""
    if len(body) < 6 or body[0] not in ADDRESSES:
        return None
    count, before = ADDRESSES[body[0]]
    field, behind = body[6 : 6 + count], body[6 + count :]
    if len(field) < count or not is_read(behind):
        return None
    address = ipaddress.ip_address(before + field) if count else destination
    named = (address.version, int(address)) if count or is_of_one(address) else None
    return named, big(body, 2, 2), big(body, 4, 2)


def heard_in(found):
    """Each router's last IHU for each node that it names, and each sender's multicast Hellos."""
    ihus, hellos = {}, {origin: [] for origin in found.packets}
    for origin, packet, at, destination in found.sent:
        place, *router = origin
        for kind, body in tlvs_of(packet):
            if kind == HELLO and len(body) >= 6 and not body[0] & UNICAST and is_read(body[6:]):
                hellos[origin].append((big(body, 2, 2), big(body, 4, 2)))
            if kind == IHU and (ihu := ihu_of(body, destination)):
                named, rxcost, interval = ihu
                others = [tuple(node) for there, *node in found.packets if there == place]
                for node in [named] if named else others:
                    if named or list(node) != router:
                        ihus[origin, node] = rxcost, interval, found.records[at][1]
    return ihus, hellos


def missed_between(before, seqno):
    steps = (seqno - before) % 65_536
    return steps - 1 if 0 < steps <= MOST_STEPS else 0


def cost_text(cost):
    return "-" if cost is None else "infinite" if cost == INFINITY else cost


def line_of(found, ihus, hellos, link, moment, factor, as_json):
    """What is told of a router and a neighbour."""
    origin, node = link
    neighbour = (origin[0], *node)

    def cost(one):
        rxcost, interval, time = ihus.get(one, (None, 0, 0))
        return None if interval and time + interval * factor <= moment else rxcost

    heard = hellos.get(neighbour, [])
    seqnos = [seqno for seqno, _ in heard]
    intervals = [interval for _, interval in heard if interval]
    says = {
        "neighbour": reader.text_of(*node),
        "rxcost": cost(link),
        "back": cost((neighbour, tuple(origin[1:]))),
        "last": reader.time_text(ihus[link][2]),
        "hellos": len(heard),
        "missed": sum(map(missed_between, seqnos, seqnos[1:])),
        "interval": reader.in_seconds(intervals[-1]) if intervals else None,
    }
    if as_json:
        return reader.json_line({**moments.sender_json(origin, found.names), **says})
    says.update(rxcost=cost_text(says["rxcost"]), back=cost_text(says["back"]))
    says.update(interval="-" if says["interval"] is None else says["interval"])
    words = " ".join(f"{name} {value}" for name, value in list(says.items())[1:])
    return f"{moments.sender_text(origin, found.names)} hears {says['neighbour']} {words}\n"


def links(octets, options):
    """What `links` answers for a capture."""
    window = reader.window_of(options.since, options.until) or reader.Window()
    wanted = reader.Wanted(None, options.interface)
    found = reader.find(octets, reader.USUAL_OCTETS, wanted, options.accept_cut, window)
    times = [time for _, time in found.records]
    moment = max(times, default=0) if window.until is None else window.until.at(found.start or 0)
    factor = moments.factor_of(options.expiry) if options.expiry else moments.RFC_FACTOR
    ihus, hellos = heard_in(found)
    order = lambda link: (reader.by_place(link[0]), link[1])
    lines = [
        line_of(found, ihus, hellos, link, moment, factor, options.json)
        for link in sorted(ihus, key=order)
    ]
    notes = [*reader.notes_of(found), *reader.time_notes(found, [])]
    errors = () if found.packets else ("no Babel packets",)
    if found.packets and not lines:
        notes.append(("no IHUs", {"note": "no-ihus"}))
    if options.quiet:
        notes = []
    lines += [reader.json_line(says) for _, says in notes if options.json]
    return Answer(0 if ihus else 1, "".join(lines).encode(), errors + reader.texts_of(notes))


def parser():
    words = argparse.ArgumentParser(
        description=__doc__, formatter_class=argparse.RawDescriptionHelpFormatter
    )
    words.add_argument("capture", nargs="?", default="-")
    for name in "interface", "since", "until", "expiry":
        words.add_argument(f"--{name}")
    for name in "accept-cut", "json", "quiet":
        words.add_argument(f"--{name}", action="store_true")
    return words


def answer_of(words, octets):
    """What these words answer over a capture."""
    options = parser().parse_intermixed_args(list(map(str, words)))
    try:
        return links(octets, options)
    except reader.NoTime as error:
        return Answer(2, errors=(str(error),))
    except Fault as fault:
        return Answer(3, errors=(str(fault),))


def main():
    options = parser().parse_intermixed_args()
    is_file = options.capture != "-"
    octets = pathlib.Path(options.capture).read_bytes() if is_file else sys.stdin.buffer.read()
    found = answer_of(sys.argv[1:], octets)
    sys.stdout.buffer.write(found.output)
    sys.stderr.write("".join(f"{line}\n" for line in found.errors))
    return found.status


if __name__ == "__main__":
    sys.exit(main())
