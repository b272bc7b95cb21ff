#!/usr/bin/env python3
"""Writes the loads of the measurements into a folder: dumps of Babel packets (RFC 8966, 4.2), all
from 192.0.2.1.

    loads.py FOLDER [--seed N]

The same seed writes the same octets. No dump is past the program's limits: 33,554,432 octets,
262,144 rows, and as many canonical pairs.
"""

import argparse
import ipaddress
import itertools
import pathlib
import random
import struct

MAX_BYTES = 33_554_432
MAX_BODY = 1_400
MAX_ROWS = 262_144
INFINITY = 0xFFFF
WIDTH = {4: 32, 6: 128}
NEXT_HOP = bytes.fromhex("070a0300") + bytes.fromhex("0000000000000001")


class Dump:
    """Packets being written; each Update leaves out the octets that it shares with the one before
    of its family. IPv4 routes have IPv6 next hops where that is asked for (RFC 9229)."""

    def __init__(self, path, via_v6=False):
        self.file = open(path, "wb")
        self.written = 0
        self.encodings = {4: 4 if via_v6 else 1, 6: 2}
        self.clear()

    def clear(self):
        self.body = bytearray()
        self.router_id = None
        self.defaults = {}

    def put(self, family, bits, length, ann, source=None):
        size = len(self.body)
        before = (self.router_id, dict(self.defaults))
        self.append(family, bits, length, ann, source)
        if len(self.body) > MAX_BODY:
            del self.body[size:]
            self.router_id, self.defaults = before
            self.flush()
            self.append(family, bits, length, ann, source)

    def append(self, family, bits, length, ann, source):
        router_id, seqno, metric = ann
        encoding = self.encodings[family]
        if encoding != 1 and family not in self.defaults:
            self.body += NEXT_HOP
        if self.router_id != router_id:
            self.body += bytes((6, 10, 0, 0)) + router_id
            self.router_id = router_id
        octets = bits.to_bytes(WIDTH[family] // 8, "big")
        count = (length + 7) // 8
        last = self.defaults.get(family, b"")
        omitted = 0
        while omitted < min(count, len(last)) and octets[omitted] == last[omitted]:
            omitted += 1
        self.defaults[family] = octets
        sub = b""
        if source is not None:
            source_bits, source_length = source
            field = source_bits.to_bytes(WIDTH[family] // 8, "big")[: (source_length + 7) // 8]
            sub = bytes((128, 1 + len(field), source_length)) + field
        field = octets[omitted:count]
        fixed = struct.pack(">BBBBHHH", encoding, 0x80, length, omitted, 1_600, seqno, metric)
        self.body += bytes((8, len(fixed) + len(field) + len(sub))) + fixed + field + sub

    def flush(self):
        if self.body:
            self.file.write(struct.pack(">BBH", 42, 2, len(self.body)) + self.body)
            self.written += 4 + len(self.body)
        self.clear()

    def close(self):
        self.flush()
        self.file.close()


ROUTER_ID = bytes.fromhex("060a0000 02e0905949f30003")
WILDCARD = struct.pack(">BBBBBBHHH", 8, 10, 0, 0, 0, 0, 1_600, 1, INFINITY)


def update(family, bits, length, metric=256):
    """An Update that leaves nothing out."""
    field = bits.to_bytes(WIDTH[family] // 8, "big")[: (length + 7) // 8]
    encoding = 1 if family == 4 else 2
    return (
        struct.pack(">BBBBBBHHH", 8, 10 + len(field), encoding, 0, length, 0, 1_600, 1, metric)
        + field
    )


def write_tlvs(path, tlvs):
    """As many of the TLVs as fit into a dump, in packets that begin with one router-id and one IPv6
    next hop."""
    head = ROUTER_ID + NEXT_HOP
    body, written = bytearray(head), 0
    with open(path, "wb") as file:
        for tlv in tlvs:
            if len(body) + len(tlv) > MAX_BODY:
                file.write(struct.pack(">BBH", 42, 2, len(body)) + body)
                written += 4 + len(body)
                body = bytearray(head)
                if written + 4 + MAX_BODY > MAX_BYTES:
                    return
            body += tlv
        file.write(struct.pack(">BBH", 42, 2, len(body)) + body)


def announcements(rng, count):
    """Router-ids with a sequence number each, at some metrics."""
    routers = [
        (rng.randrange(1, 2**63).to_bytes(8, "big"), rng.randrange(2**16)) for _ in range(count)
    ]
    return [
        (router_id, seqno, metric)
        for router_id, seqno in routers
        for metric in (96, 192, 256, 352, 512, 1_024)
    ]


def disjoint(rng, family, start, lengths, count, gap):
    """So many prefixes from an address on, no two with a common address, of lengths in these
    proportions."""
    values, weights = zip(*lengths.items())
    width, at, prefixes = WIDTH[family], start, []
    for length in rng.choices(values, weights, k=count):
        size = 1 << (width - length)
        at = (at + size - 1) // size * size
        prefixes.append((at, length))
        at += size + (rng.randrange(gap) if rng.random() < 0.3 else 0)
    assert at <= {4: 224 << 24, 6: 0x4000 << 112}[family], "the addresses are too few"
    return prefixes


IPV4_LENGTHS = {24: 600, 23: 120, 22: 120, 21: 50, 20: 40, 19: 30, 18: 15, 17: 7, 16: 12}
IPV4_LENGTHS |= {15: 2, 14: 2, 13: 1, 12: 1}
IPV6_LENGTHS = {
    48: 550, 47: 20, 46: 30, 44: 100, 40: 90, 36: 40, 33: 20, 32: 120, 29: 25, 28: 3, 24: 2
}


def ipv4_routes(rng, count):
    return disjoint(rng, 4, 1 << 24, IPV4_LENGTHS, count, 1 << 13)


def write(path, rng, family, prefixes):
    """The prefixes in any order, each with one of some hundred announcements."""
    anns = announcements(rng, 20)
    rng.shuffle(prefixes)
    dump = Dump(path)
    for bits, length in prefixes:
        dump.put(family, bits, length, rng.choice(anns))
    dump.close()


def write_updates(path, rng):
    """As many octets as a dump may have, of Updates to 1,000 keys, one in fifty a retraction."""
    ipv4 = [
        (4, bits, length)
        for bits, length in disjoint(rng, 4, 10 << 24, {24: 8, 22: 1, 32: 1}, 600, 1 << 8)
    ]
    ipv6 = [
        (6, bits, length)
        for bits, length in disjoint(
            rng, 6, 0x2001_0DB8 << 96, {64: 8, 56: 1, 128: 1}, 400, 1 << 64
        )
    ]
    keys = ipv4 + ipv6
    routers = [rng.randrange(1, 2**63).to_bytes(8, "big") for _ in range(8)]
    dump, seqno = Dump(path), 0
    while dump.written + MAX_BODY + 4 <= MAX_BYTES - MAX_BODY:
        seqno = (seqno + 1) % 2**16
        for place, (family, bits, length) in enumerate(keys):
            metric = INFINITY if rng.random() < 0.02 else rng.randrange(96, 2_048)
            dump.put(family, bits, length, (routers[place // 125], seqno, metric))
            if dump.written + 2 * (MAX_BODY + 4) > MAX_BYTES:
                break
    dump.close()


def write_ipv4(folder, rng):
    """200,000 routes, some of them within others; the same with one other metric; and the same with
    an IPv6 next hop."""
    prefixes = ipv4_routes(rng, 198_000)
    wide = [prefix for prefix in prefixes if prefix[1] <= 20]
    for bits, length in rng.sample(wide, 2_000):
        prefixes.append((bits + (rng.randrange(1, 1 << (24 - length)) << 8), 24))
    anns = announcements(rng, 20)
    rng.shuffle(prefixes)
    routes = [(bits, length, rng.choice(anns)) for bits, length in prefixes]
    for name, other in (("ipv4", 0), ("ipv4-other", 1), ("ipv4-via-v6", 0)):
        dump = Dump(folder / f"{name}.dump", via_v6=name == "ipv4-via-v6")
        for place, (bits, length, (router_id, seqno, metric)) in enumerate(routes):
            metric += other if place == 100_000 else 0
            dump.put(4, bits, length, (router_id, seqno, metric))
        dump.close()


def write_sources(path, rng):
    """20,000 destinations from three source prefixes each, and 400 of them from anywhere too."""
    destinations = disjoint(rng, 4, 1 << 24, IPV4_LENGTHS, 20_000, 1 << 13)
    sources = disjoint(rng, 4, 100 << 24, {24: 4, 22: 2, 20: 2, 16: 2}, 256, 1 << 16)
    anns = announcements(rng, 20)
    rng.shuffle(destinations)
    dump = Dump(path)
    for place, (bits, length) in enumerate(destinations):
        for source in rng.sample(sources, 3):
            dump.put(4, bits, length, rng.choice(anns), source)
        if place % 50 == 0:
            dump.put(4, bits, length, rng.choice(anns))
    dump.close()


def write_routes(path, routes):
    dump = Dump(path)
    for route in routes:
        dump.put(*route)
    dump.close()


def write_with_other(folder, name, routes):
    """The routes; and the same with one other metric at the last."""
    *before, (family, bits, length, (router_id, seqno, metric), source) = routes
    write_routes(folder / f"{name}.dump", routes)
    write_routes(
        folder / f"{name}-other.dump",
        [*before, (family, bits, length, (router_id, seqno, metric + 1), source)],
    )


def write_shared(folder, name, rng, count):
    """So many sources of all destinations, and nearly as many destinations that each have one of
    them otherwise. Nearly all that the destinations answer is shared by all of them. Split, the
    dump answers the same, but its rows are others from the first on: one source has a route for
    each half of the destinations in place of one for all."""
    sources = disjoint(rng, 4, 100 << 24, {24: 1}, count, 1 << 8)
    destinations = disjoint(rng, 4, 1 << 24, {24: 1}, count - 1, 1 << 8)
    anns = announcements(rng, 20)
    routes = [(4, 0, 0, rng.choice(anns), source) for source in sources]
    routes += [
        (4, *destination, rng.choice(anns), source)
        for destination, source in zip(destinations, sources)
    ]
    write_with_other(folder, name, routes)
    (family, _, _, *rest), *others = routes
    halves = [(family, half, 1, *rest) for half in (0, 1 << 31)]
    write_routes(folder / f"{name}-split.dump", halves + others)


def write_apart(folder, rng):
    """Two dumps of as many networks as there may be, each with every other one, so that they share
    no row; and a million pairs, half of which the first answers."""
    anns = announcements(rng, 20)
    first, places = 1 << 24, range(MAX_ROWS)
    for name, odd in (("apart", 0), ("apart-other", 1)):
        networks = (first + (2 * place + odd << 8) for place in rng.sample(places, MAX_ROWS))
        routes = [(4, network, 24, rng.choice(anns), None) for network in networks]
        write_routes(folder / f"{name}.dump", routes)
    with open(folder / "apart.pairs", "w", encoding="ascii") as file:
        for _ in range(1_000_000):
            to, source = first + rng.randrange(2 * MAX_ROWS << 8), rng.getrandbits(32)
            file.write(f"{ipaddress.IPv4Address(to)} {ipaddress.IPv4Address(source)}\n")


def write_many_sources(path, rng, count):
    """So many sources of one network, and as many hosts of another: of all that is answered nearly
    all is what the first destination answers for each source."""
    anns = announcements(rng, 20)
    routes = [
        (4, 10 << 24, 8, rng.choice(anns), source)
        for source in disjoint(rng, 4, 100 << 24, {24: 1}, count, 1 << 8)
    ]
    routes += [
        (4, 11 << 24 | host, 32, rng.choice(anns)) for host in rng.sample(range(1 << 24), count)
    ]
    write_routes(path, routes)


def write_network_or_hosts(folder, name, rng, count):
    """One network from so many sources; and as many of its hosts from all sources, each with an
    announcement of its own. The two differ for each host at each source: far too often, in a few
    octets."""
    anns = announcements(rng, count // 6 + 1)
    sources = disjoint(rng, 4, 100 << 24, {24: 1}, count, 1 << 8)
    addresses = [10 << 24 | host for host in rng.sample(range(1 << 24), count)]
    write_routes(
        folder / f"{name}.dump",
        [(4, 10 << 24, 8, ann, source) for ann, source in zip(anns, sources)],
    )
    write_routes(
        folder / f"{name}-other.dump",
        [(4, bits, 32, ann) for bits, ann in zip(addresses, anns)],
    )


def write_deepest(folder, name, rng, count):
    """128 nested sources of one network, and so many of its hosts, each with an announcement of its
    own from the longest source; and the same with other metrics at the hosts. What each host
    answers is as deep as there are sources, and differs in the deepest alone."""
    anns = announcements(rng, (128 + count) // 6 + 1)
    sources = nested(0x2001 << 112 | rng.getrandbits(112), 1)
    network = 0x2001_0DB8 << 96
    routes = [(6, network, 32, ann, source) for ann, source in zip(anns, sources)]
    addresses = [network | bits for bits in rng.sample(range(1 << 40), count)]
    for other, more in (("", 0), ("-other", 1)):
        found = [
            (6, bits, 128, (router_id, seqno, metric + more), sources[-1])
            for bits, (router_id, seqno, metric) in zip(addresses, anns[128:])
        ]
        write_routes(folder / f"{name}{other}.dump", routes + found)


def write_restate(path, rng, count):
    """128 nested sources of one network, and so many of its hosts that say the longest of them
    again: no host changes what is answered."""
    anns = itertools.cycle(announcements(rng, 20))
    sources = nested(0x2001 << 112 | rng.getrandbits(112), 1)
    network = 0x2001_0DB8 << 96
    routes = [(6, network, 32, ann, source) for ann, source in zip(anns, sources)]
    *_, (_, _, _, *rest) = routes
    hosts = [(6, network | bits, 128, *rest) for bits in rng.sample(range(1 << 40), count)]
    write_routes(path, routes + hosts)


def comb(rng):
    """128 sources that part from one address at each of its bits, the longest last, so that what a
    destination answers is 128 forks deep."""
    spine = rng.getrandbits(128)
    return [
        ((spine >> 128 - length ^ 1) << 128 - length, length) for length in range(1, 128)
    ] + [(spine, 128)]


def write_hidden(path, rng, count):
    """16 deep functions of the source at one network; in each of its blocks of two hosts the
    deepest source of each has an announcement of its own, and both hosts hide that again. So many
    rows, 18 a block, of which nearly none is seen."""
    anns = announcements(rng, 20)
    router_id, seqno, _ = anns[0]
    combs = [comb(rng) for _ in range(16)]
    network = 0x2001_0DB8 << 96
    routes = [(6, network, 32, rng.choice(anns), source) for each in combs for source in each]
    for place in range((count - len(routes)) // 18):
        block = network | place << 1
        routes += [
            (6, block, 127, (router_id, seqno, rng.randrange(INFINITY)), each[-1])
            for each in combs
        ]
        routes += [(6, block | half, 128, anns[0]) for half in (0, 1)]
    write_routes(path, routes)


def write_chains(folder, name, rng, count):
    """So many deep functions of the source at one network, and 95 networks in one another, each
    with another announcement for the deepest source of each; and the same with other metrics
    there."""
    anns = announcements(rng, 20)
    combs = [comb(rng) for _ in range(count)]
    network = 0x2001_0DB8 << 96
    for other, more in (("", 0), ("-other", 1)):
        one = random.Random(f"{name} chains")
        routes = [(6, network, 32, one.choice(anns), source) for each in combs for source in each]
        routes += [
            (6, network, length, (router_id, seqno, metric + more), each[-1])
            for length in range(33, 128)
            for each in combs
            for router_id, seqno, metric in (one.choice(anns),)
        ]
        write_routes(folder / f"{name}{other}.dump", routes)


def write_router_ids(path, rng, count):
    """So many IPv6 hosts, each by a router of its own."""
    routes = [
        (6, bits, 128, (rng.getrandbits(63).to_bytes(8, "big"), 1, 256))
        for bits in hosts(rng, 6, count)
    ]
    write_routes(path, routes)


def write_again(path, rng, count):
    """So many IPv6 hosts, announced in order, and again in any order as often as there is room."""
    keys = sorted(hosts(rng, 6, count))
    again = itertools.chain(keys, iter(lambda: rng.choice(keys), None))
    write_tlvs(path, (update(6, bits, 128) for bits in again))


def hosts(rng, family, count):
    """So many addresses of one network, in any order."""
    network, free = {4: (10 << 24, 24), 6: (0x2001_0DB8 << 96, 96)}[family]
    found = dict.fromkeys(rng.getrandbits(free) for _ in range(count))
    while len(found) < count:
        found[rng.getrandbits(free)] = None
    return [network | bits for bits in found]


def write_hosts(path, rng, family, count):
    """Host routes with no shorter route, as mesh networks announce them."""
    write(path, rng, family, [(bits, WIDTH[family]) for bits in hosts(rng, family, count)])


def write_hosts_from_hosts(folder, rng):
    """100,000 IPv6 hosts, each from a host of its own; and the same with one other metric at the
    last."""
    anns = announcements(rng, 20)
    sources = ((bits, 128) for bits in hosts(rng, 6, 100_000))
    routes = [
        (6, bits, 128, rng.choice(anns), source)
        for bits, source in zip(hosts(rng, 6, 100_000), sources)
    ]
    write_with_other(folder, "hosts-from-hosts", routes)


def write_default_over_hosts(path, rng):
    """A default route and as many IPv6 hosts as there may be besides: far too many pairs."""
    write(path, rng, 6, [(0, 0)] + [(bits, 128) for bits in hosts(rng, 6, MAX_ROWS - 1)])


def write_deep(folder, rng):
    """A default route and 3,100 long prefixes in it: 3,101 rows and 262,043 pairs. Each bit of a
    prefix that it shares with no other makes one more pair."""
    lengths = dict.fromkeys((rng.getrandbits(96) for _ in range(3_100)), 96)
    pairs = 1 + sum(len({bits >> 96 - length for bits in lengths}) for length in range(96))
    for bits in itertools.islice(itertools.cycle(lengths), pairs - 262_043):
        lengths[bits] -= 1
    prefixes = [(0, 0)] + [
        (bits >> 96 - length << 128 - length, length) for bits, length in lengths.items()
    ]
    default, *anns = announcements(rng, 20)
    rng.shuffle(prefixes)
    routes = [
        (6, bits, length, rng.choice(anns) if length else default, None)
        for bits, length in prefixes
    ]
    write_with_other(folder, "deep", routes)


def fold(state, octets):
    """A step of a hash whose seed is the same in every run."""
    if len(octets) < 4:
        word = octets[0] | octets[len(octets) // 2] << 8 | octets[-1] << 16
    else:
        word = int.from_bytes(octets[:4], "little") | int.from_bytes(octets[-4:], "little") << 32
    product = (state ^ word) * (0x9E37_79B9_7F4A_7C15 ^ 2 * len(octets))
    return product & 2**64 - 1 ^ product >> 64


def flooding_keys(count):
    """IPv6 addresses that such a hash puts into one place, since a word that equals its state makes
    it forget all before: for three ways to write a family before the address."""
    for kind, size in enumerate((1, 4, 8)):
        state = fold(fold(0x243F_6A88_85A3_08D3, (1).to_bytes(size, "little")), bytes((128,)))
        for place in range(count // 3):
            high = 0x2001 << 48 | kind << 32 | place
            yield high << 64 | fold(state, high.to_bytes(8, "little"))


def one_tag_keys(count):
    """IPv6 addresses of which a hash that multiplies one half and adds the other makes one
    number."""
    for place in range(count):
        high = 0x2001 << 48 | place
        yield high << 64 | -high * 0x9E37_79B9_7F4A_7C15 & 2**64 - 1


def write_one_tag(folder, rng):
    """Such keys, each announced three times; and such keys, each retracted and then replaced by
    another."""
    keys = list(one_tag_keys(2 * MAX_ROWS))
    rng.shuffle(keys)
    live = keys[:MAX_ROWS]
    orders = [live, *(rng.sample(live, len(live)) for _ in range(2))]
    again = (update(6, bits, 128) for order in orders for bits in order)
    write_tlvs(folder / "one-tag.dump", again)
    replaced = (
        update(6, bits, 128, metric)
        for old, new in zip(live, keys[MAX_ROWS:])
        for bits, metric in ((old, INFINITY), (new, 256))
    )
    first = (update(6, bits, 128) for bits in live)
    write_tlvs(folder / "one-tag-replaced.dump", itertools.chain(first, replaced))


def nested(bits, least):
    """The prefixes of an IPv6 address, from this length on."""
    return [(bits >> 128 - length << 128 - length, length) for length in range(least, 129)]


def write_nested(folder, rng):
    """129 nested destinations, each from a source that is not asked for; and from 128 nested ones.
    The pairs ask for destinations that share the most bits with them, or any number."""
    dst, src = 0x2001 << 112 | rng.getrandbits(112), 0x2001 << 112 | rng.getrandbits(112)
    ann = announcements(rng, 1)[0]
    for name, count, pairs in (("nested", 1, 100_000), ("nested-sources", 128, 10_000)):
        dump = Dump(folder / f"{name}.dump")
        for bits, length in nested(dst, 0):
            for source in nested(src, 129 - count):
                dump.put(6, bits, length, ann, source)
        dump.close()
        with open(folder / f"{name}.pairs", "w", encoding="ascii") as file:
            for place in range(pairs):
                other = dst ^ rng.getrandbits(rng.randrange(129)) if place % 2 else dst
                to, source = (ipaddress.IPv6Address(a) for a in (other, src ^ 1 << 127))
                file.write(f"{to} {source}\n")


def write_readings(folder, seed):
    """Loads that differ in the order and in the kind of their Updates alone."""
    rng = random.Random(f"{seed} readings")
    rising = [(4, bits, length) for bits, length in ipv4_routes(rng, 200_000)]
    write_tlvs(folder / "rising.dump", (update(*route) for route in rising))
    write_tlvs(
        folder / "shuffled.dump", (update(*route) for route in rng.sample(rising, len(rising)))
    )
    keys = [10 << 24 | 7 * place for place in range(131_072)]
    for name, order in (("turns", keys), ("turns-shuffled", rng.sample(keys, len(keys)))):
        metrics = itertools.chain.from_iterable((256 + turn, INFINITY) for turn in range(16))
        write_tlvs(
            folder / f"{name}.dump",
            (update(4, bits, 32, metric) for metric in metrics for bits in order),
        )
    few = keys[:600]
    write_tlvs(
        folder / "random.dump",
        (update(4, bits, 32, rng.randrange(1, 60_000)) for bits in rng.choices(few, k=2_400_000)),
    )
    write_tlvs(folder / "flooding.dump", (update(6, bits, 128) for bits in flooding_keys(MAX_ROWS)))
    write_tlvs(folder / "wildcards.dump", wildcards(rising))
    passing = (
        (place * 2_654_435_761 & 0xFFFF_FFFF, metric)
        for place in itertools.count()
        for metric in (256, INFINITY)
    )
    write_tlvs(folder / "passing.dump", (update(4, bits, 32, metric) for bits, metric in passing))


def wildcards(routes):
    """Many routes, and then in turn a retraction of all and a new route."""
    yield from (update(*route) for route in routes)
    for place in itertools.count():
        yield WILDCARD
        yield update(4, place & 0xFF_FFFF, 32)


def write_merging(path, rng, blocks):
    """131,072 sibling prefixes in so many blocks with one announcement each."""
    anns = announcements(rng, 20)
    routes = []
    each = 131_072 // blocks
    for block in range(blocks):
        ann = anns[block % len(anns)]
        routes += [(20 << 24 | (block * each + place) << 8, 24, ann) for place in range(each)]
    rng.shuffle(routes)
    dump = Dump(path)
    for bits, length, ann in routes:
        dump.put(4, bits, length, ann)
    dump.close()


def main():
    parser = argparse.ArgumentParser(
        description=__doc__, formatter_class=argparse.RawDescriptionHelpFormatter
    )
    parser.add_argument("folder", type=pathlib.Path)
    parser.add_argument("--seed", type=int, default=1)
    options = parser.parse_args()
    folder, seed = options.folder, options.seed
    folder.mkdir(parents=True, exist_ok=True)
    write_updates(folder / "updates.dump", random.Random(f"{seed} updates"))
    write_ipv4(folder, random.Random(f"{seed} ipv4"))
    rng = random.Random(f"{seed} ipv6")
    write(
        folder / "ipv6.dump",
        rng,
        6,
        disjoint(rng, 6, 0x2001 << 112, IPV6_LENGTHS, 100_000, 1 << 84),
    )
    write_sources(folder / "sources.dump", random.Random(f"{seed} sources"))
    write_shared(folder, "shared", random.Random(f"{seed} shared"), 20_000)
    write_shared(folder, "shared-131k", random.Random(f"{seed} shared 131k"), 131_072)
    write_apart(folder, random.Random(f"{seed} apart"))
    write_many_sources(folder / "many-sources.dump", random.Random(f"{seed} many sources"), 131_072)
    for size in (1, 2, 4):
        rng = random.Random(f"{seed} network or hosts {size}")
        write_network_or_hosts(folder, f"network-or-hosts-{size}k", rng, size * 1_024)
        rng = random.Random(f"{seed} deepest {size}")
        write_deepest(folder, f"deepest-{size * 16}k", rng, size * 16_384)
    write_merging(folder / "merging.dump", random.Random(f"{seed} merging"), 512)
    write_merging(folder / "merging-16.dump", random.Random(f"{seed} merging 16"), 16)
    write_hosts(folder / "hosts-ipv4.dump", random.Random(f"{seed} hosts ipv4"), 4, 200_000)
    write_hosts(folder / "hosts-ipv6.dump", random.Random(f"{seed} hosts ipv6"), 6, 200_000)
    write_hosts_from_hosts(folder, random.Random(f"{seed} hosts from hosts"))
    write_default_over_hosts(folder / "default-over-hosts.dump", random.Random(f"{seed} default"))
    write_deep(folder, random.Random(f"{seed} deep"))
    for size in (16, 64, 256):
        rng = random.Random(f"{seed} router-ids {size}")
        write_router_ids(folder / f"router-ids-{size}k.dump", rng, size * 1_024)
    for size in (16, 64):
        rng = random.Random(f"{seed} restate {size}")
        write_restate(folder / f"restate-{size}k.dump", rng, size * 1_024)
        rng = random.Random(f"{seed} hidden {size}")
        write_hidden(folder / f"hidden-{size}k.dump", rng, size * 1_024)
    for size in (64, 256):
        write_chains(folder, f"chains-{size}", random.Random(f"{seed} chains {size}"), size)
    write_again(folder / "again.dump", random.Random(f"{seed} again"), MAX_ROWS)
    write_one_tag(folder, random.Random(f"{seed} one tag"))
    write_nested(folder, random.Random(f"{seed} nested"))
    write_readings(folder, seed)
    for size in (1, 4, 16, 64, 256):
        rng = random.Random(f"{seed} growth {size}")
        write(folder / f"growth-{size}k.dump", rng, 4, ipv4_routes(rng, size * 1_024))
        write_hosts(folder / f"growth-hosts-{size}k.dump", rng, 6, size * 1_024)


if __name__ == "__main__":
    main()
