#!/usr/bin/env python3
"""Which routes a router uses, of those that its neighbours announce: a slow program, from RFC 8966
and docs/OUTPUT.md, for nothing but to be read.

    select_routes.py --at N [--at N2 ..] [--to D [--src S]] [OPTIONS] CAPTURE

The options are `--interface`, `--since`, `--until`, `--expiry`, `--cost`, `--etx`, `--v4-via-v6`,
`--accept-cut`, `--json` and `--quiet`. It writes what `babel-dump select` writes, but for hints.
"""

import argparse
import ipaddress
import pathlib
import sys

import links
import moments
from moments import Answer, Fault, reader

INFINITY = 0xFFFF
# An entry of a source table lasts for 180 s: RFC 8966, appendix B.
LASTS = 180 * 1_000_000_000


def is_nearer(route, entry):
    """RFC 8966, 3.5.1: of a larger seqno, modulo 2^16, or of the same one and a smaller metric."""
    _, _, seqno, metric = route
    steps = (seqno - entry[0]) % 65_536
    return 0 < steps < 32_768 or steps == 0 and metric < entry[1]


def sources_of(found, own, via_v6):
    """The source table that the router's own Updates build, in the order in which they came: of
    each key and router-id its seqno, its metric and when it was announced last (3.7.3)."""
    entries = {}
    for origin, packet, place, _ in found.sent:
        if origin not in own:
            continue
        time = found.records[place][1]
        for _, word in moments.words_in(packet, moments.sender_of(origin), 0, via_v6):
            if not word or not word.route:
                continue
            _, router_id, seqno, metric = word.route
            source, old = (word.key, router_id), entries.get((word.key, router_id))
            if old is None or old[2] + LASTS <= time or is_nearer(word.route, old):
                entries[source] = seqno, metric, time
            else:
                entries[source] = *old[:2], time
    return entries


class Chooser:
    """What a router heard, up to a moment."""

    def __init__(self, found, options):
        self.found, self.options = found, options
        self.routers = [ipaddress.ip_address(word) for word in options.at]
        nodes = [(address.version, int(address)) for address in self.routers]
        is_own = lambda origin: tuple(origin[1:]) in nodes
        is_asked = lambda origin: options.interface in (None, reader.place_asked(origin[0]))
        sent = [origin for origin in found.packets if is_asked(origin)]
        for node, address in zip(nodes, self.routers):
            if not any(tuple(origin[1:]) == node for origin in sent):
                raise Fault(f"no packets from {moments.str_of(address)}")
        self.own = [origin for origin in sent if is_own(origin)]
        places = {origin[0] for origin in self.own}
        self.missed = {}
        for origin, number, reason, _ in found.unread:
            if reason in reader.LACKS and origin[0] in places:
                self.missed.setdefault(origin, f"datagram left out at packet {number}: {reason}")
        self.senders = [origin for origin in sent if origin[0] in places]
        window = reader.window_of(options.since, options.until)
        self.moment = moments.end_of(found, window)
        word = options.expiry
        self.factor = moments.factor_of(word) if word else moments.RFC_FACTOR
        self.ihus, _ = links.heard_in(found)
        every = sorted({*self.senders, *self.missed}, key=reader.by_place)
        self.rows = {origin: self.rows_of(origin) for origin in every}
        self.entries = sources_of(found, self.own, options.v4_via_v6)

    def rows_of(self, origin):
        """The rows of a sender at the moment."""
        try:
            if origin in self.missed:
                raise Fault(self.missed[origin])
            said = list(moments.words_of(self.found, origin, self.options.v4_via_v6))
        except Fault as fault:
            name = moments.sender_text(origin, self.found.names)
            raise Fault(f"{name}: {fault}") from fault
        return moments.table(said, self.factor, False, self.moment)

    def rxcost(self, router, neighbour):
        rxcost, interval, time = self.ihus.get((router, tuple(neighbour[1:])), (INFINITY, 0, 0))
        is_over = interval and time + interval * self.factor <= self.moment
        return INFINITY if is_over else rxcost

    def cost(self, origin):
        for word in reversed(self.options.cost or []):
            address, cost = word.split("=")
            if ipaddress.ip_address(address) == moments.sender_of(origin):
                return int(cost)
        return min(self.cost_under(origin, own) for own in self.own if own[0] == origin[0])

    def cost_under(self, origin, own):
        txcost, rxcost = self.rxcost(origin, own), self.rxcost(own, origin)
        if INFINITY in (txcost, rxcost):
            return INFINITY
        return min(max(txcost, 256) * rxcost // 256, INFINITY) if self.options.etx else txcost

    def distance(self, key, route):
        entry = self.entries.get((key, route[1]))
        return entry if entry and self.moment < entry[2] + LASTS else None

    def chosen(self):
        """The rows of each key, each with who announces it, its cost, its total, what it is to the
        router, and its entry."""
        offers, owns = {}, {}
        for origin, rows in self.rows.items():
            for key, route in rows.items():
                (owns if origin in self.own else offers).setdefault(key, []).append((origin, route))
        self.heard = offers
        for key in sorted({*offers, *owns}, key=lambda key: key.order()):
            yield key, list(self.rows_for(key, offers.get(key, []), owns.get(key, [])))

    def rows_for(self, key, offers, owns):
        rows = []
        for origin, route in offers:
            cost = self.cost(origin)
            total, entry = min(route[3] + cost, INFINITY), self.distance(key, route)
            is_feasible = entry is None or is_nearer(route, entry)
            rows.append((origin, route, cost, total, entry, is_feasible and total < INFINITY))
        usable = [row for row in rows if row[5]]
        least = min((row[3] for row in usable), default=INFINITY)
        announced = lambda row: any((row[1][1], row[3]) == (own[1], own[3]) for _, own in owns)
        best = [row for row in usable if announced(row)]
        is_own = False
        if not best:
            ids = {row[1][1] for row in usable if row[3] == least}
            is_own = owns and all(own[3] < least or own[1] not in ids for _, own in owns)
            best = [] if is_own else [row for row in usable if row[3] == least]
        if is_own:
            origin, route = min(owns, key=lambda own: (own[1][3], moments.by_sender(own[0])))
            yield origin, route, 0, route[3], None, "own"
        for row in sorted(rows, key=lambda row: (row[3], moments.by_sender(row[0]))):
            origin, route, cost, total, entry, _ = row
            if cost == INFINITY:
                state = "unheard"
            elif total == INFINITY:
                state = "unreachable"
            elif entry and not is_nearer(route, entry):
                state = "unfeasible"
            else:
                state = "selected" if row in best else "feasible"
            yield origin, route, cost, total, entry, state


def is_used(rows):
    return any(row[5] in ("selected", "own") for row in rows)


def told(chosen, options):
    """The keys that are told, and the status."""
    if not options.to:
        return chosen, 0
    pair = [ipaddress.ip_address(word) for word in moments.pair_of(options)]
    match = {key: rows for key, rows in chosen.items() if moments.contains_both(key, *pair)}
    lengths = lambda key: (key.destination[1], key.source[1])
    used = [lengths(key) for key, rows in match.items() if is_used(rows)]
    least = max(used, default=(0, 0))
    return {key: rows for key, rows in match.items() if lengths(key) >= least}, int(not used)


def number(metric):
    return "infinite" if metric == INFINITY else metric


def text_of(key, row, names):
    origin, route, cost, total, entry, state = row
    forbids = f" {entry[0]} {entry[1]}" if state == "unfeasible" else ""
    return (
        f"{' from '.join(moments.key_texts(key))} {moments.what_text(route)}"
        f" by {moments.sender_text(origin, names)} cost {number(cost)} total {number(total)}"
        f" {state}{forbids}\n"
    )


def json_of(key, row, names):
    origin, route, cost, total, entry, state = row
    destination, source = moments.key_texts(key)
    distance = entry and {"seqno": entry[0], "metric": entry[1]}
    says = {**moments.sender_json(origin, names), "destination": destination, "source": source}
    says.update(answer=moments.what_json(route), cost=cost, total=total, state=state)
    return reader.json_line({**says, "distance": distance})


def notes_of_senders(chooser):
    """The notes on the senders: first those of the router itself."""
    names = chooser.found.names
    is_other = lambda origin: (origin not in chooser.own, reader.by_place(origin))
    for origin in sorted(chooser.senders, key=is_other):
        packets = chooser.found.packets[origin]
        if not any(list(reader.updates_in(packet)) for packet in packets):
            text = f"{moments.sender_text(origin, names)}: no Updates"
            yield text, {"note": "no-updates", **moments.sender_json(origin, names)}


def notes_of(chooser, keys):
    """The notes after all else: how far feasibility was seen, and keys that have several routes."""
    last = chooser.moment - LASTS
    entries = {key for (key, _), entry in chooser.entries.items() if entry[2] > last}
    announced, count = len(entries & set(chooser.heard)), len(chooser.heard)
    if announced != count:
        address = moments.str_of(chooser.routers[0])
        of = "key" if count == 1 else "keys"
        text = f"{address} announced {announced} of {count} {of}: the others count as feasible"
        says = {"note": "feasibility", "address": address, "announced": announced, "keys": count}
        yield text, says
    ties = sum(sum(row[5] == "selected" for row in rows) > 1 for rows in keys.values())
    if ties:
        text = "1 key has" if ties == 1 else f"{ties} keys have"
        yield f"{text} several routes of the least total", {"note": "ties", "keys": ties}


def select(octets, options):
    """What `select` answers for a capture."""
    window = reader.window_of(options.since, options.until) or reader.Window()
    found = reader.find(octets, reader.USUAL_OCTETS, reader.Wanted(), options.accept_cut, window)
    for reason in reader.LACKS:
        found.left_out.pop(reason, None)
    chooser = Chooser(found, options)
    chosen = dict(chooser.chosen())
    keys, status = told(chosen, options)
    line = json_of if options.json else text_of
    lines = [line(key, row, found.names) for key, rows in keys.items() for row in rows]
    intervals = [reader.interval_of(found.packets[origin]) for origin in chooser.senders]
    notes = [*reader.notes_of(found), *reader.time_notes(found, intervals)]
    notes += [*notes_of_senders(chooser), *notes_of(chooser, keys)]
    lines += [reader.json_line(says) for _, says in notes if options.json and not options.quiet]
    return Answer(status, "".join(lines).encode(), reader.texts_of(notes))


def parser():
    words = argparse.ArgumentParser(
        description=__doc__, formatter_class=argparse.RawDescriptionHelpFormatter
    )
    words.add_argument("capture", nargs="?", default="-")
    words.add_argument("--at", action="append", required=True)
    words.add_argument("--cost", action="append")
    for name in "interface", "since", "until", "expiry", "to", "src":
        words.add_argument(f"--{name}")
    for name in "etx", "v4-via-v6", "accept-cut", "json", "quiet":
        words.add_argument(f"--{name}", action="store_true")
    return words


def answer_of(words, octets):
    """What these words answer over a capture."""
    options = parser().parse_intermixed_args(list(map(str, words)))
    try:
        found = select(octets, options)
    except reader.NoTime as error:
        found = Answer(2, errors=(str(error),))
    except Fault as fault:
        found = Answer(3, errors=(str(fault),))
    if options.quiet:
        found.errors = tuple(line for line in found.errors if not line.startswith("note: "))
    return found


def main():
    options = parser().parse_intermixed_args()
    is_file = options.capture != "-"
    octets = pathlib.Path(options.capture).read_bytes() if is_file else sys.stdin.buffer.read()
    found = answer_of(sys.argv[1:], octets)
    sys.stdout.buffer.write(found.output)
    sys.stderr.write("".join(f"{line}\n" for line in found.errors))
    return found.status


if __name__ == "__main__":
    sys.exit(main())
