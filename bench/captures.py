#!/usr/bin/env python3
"""Writes the captures of the measurements into a folder, each of some 100 MB, and those whose times
tell of some 20 MB, with packets of fe80::1.

    captures.py FOLDER [--seed N] [--only WORD]

The same seed writes the same octets.
"""

import argparse
import functools
import ipaddress
import itertools
import pathlib
import random
import struct
import sys

sys.path.append(str(pathlib.Path(__file__).resolve().parent.parent / "tests"))
import capture_files as made  # noqa: E402

OCTETS = 100_000_000
TIMED_OCTETS = 20_000_000
SENDER = "fe80::1"
PIECE = 4_096
HELLO = bytes.fromhex("0406 0000 0001 0190")
HEADER = 24
MOST_SENDERS = 65_536
LINK_LOCAL = 0xFE80 << 112


def babel(body):
    return b"\x2a\2" + made.number(len(body)) + body


def record_of(frame):
    """The record of a frame in a pcap file."""
    return made.pcap([made.Record(frame)])[HEADER:]


def frame_of(packet, sender=SENDER, port=made.BABEL, tags=()):
    return made.ethernet(made.ip(sender, made.udp(packet, port, port)), tags)


def write(path, head, records, rng):
    """The records in any order, each of them many times."""
    size = sum(map(len, records)) / len(records)
    with open(path, "wb") as file:
        file.write(head)
        for _ in range(int(OCTETS / size / PIECE)):
            file.write(b"".join(rng.choices(records, k=PIECE)))


def frames(rng):
    """Small frames of all kinds, one in a hundred of Babel, of three senders."""
    for place in range(2_000):
        size = rng.randrange(20, 80)
        if place % 100 == 0:
            yield frame_of(babel(HELLO), ("fe80::1", "fe80::2", "fe80::3")[place // 100 % 3])
        elif place % 10 == 1:
            yield made.MACS + b"\x08\x06" + rng.randbytes(28)
        elif place % 3 == 0:
            yield frame_of(
                rng.randbytes(size), f"10.0.{place % 256}.1", rng.randrange(1_024, 6_000)
            )
        else:
            sender = rng.choice((f"10.1.{place % 256}.1", f"2001:db8::{place:x}"))
            yield made.ethernet(made.ip(sender, rng.randbytes(size), protocol=6))


def updates(rng, count):
    """The body of a packet with so many Updates."""
    update = (
        lambda: bytes.fromhex("080d 0100 1800 0640 0001")
        + rng.randbytes(2)
        + b"\x0a"
        + rng.randbytes(2)
    )
    return bytes.fromhex("060a0000 0200000000000001") + b"".join(update() for _ in range(count))


def write_frames(path, rng):
    write(path, made.pcap([]), [record_of(frame) for frame in frames(rng)], rng)


def write_one_sender(path, rng):
    packets = (
        [frame_of(babel(updates(rng, 90))) for _ in range(500)]
        + [frame_of(babel(HELLO), "fe80::2")] * 20
    )
    write(path, made.pcap([]), [record_of(frame) for frame in packets], rng)


def write_small_packets(path, rng):
    packets = [frame_of(babel(updates(rng, 1) + HELLO)) for _ in range(500)]
    packets += [
        frame_of(babel(HELLO), "fe80::2", tags=[(0x8100, vlan)]) for vlan in range(1, 101)
    ]
    blocks = [made.enhanced(made.Record(frame)) for frame in packets]
    head = made.section() + made.interface(options=made.named(b"eth0"))
    write(path, head, blocks, rng)


def write_senders(path, rng):
    """As many senders as are counted, each of which sends at any time."""
    senders = (
        [
            str(ipaddress.IPv6Address(LINK_LOCAL | rng.getrandbits(64)))
            for _ in range(MOST_SENDERS - 1)
        ]
        + [SENDER]
    )
    records = [record_of(frame_of(babel(HELLO), sender)) for sender in senders]
    write(path, made.pcap([]), records, rng)


def write_zeros(path, rng):
    """A packet, and zeros to the end, as a disk that was full leaves them."""
    with open(path, "wb") as file:
        file.write(made.pcap([]) + record_of(frame_of(babel(HELLO))))
        file.truncate(OCTETS)


# ---- captures whose times tell

SECOND = made.SECOND
ROUTER_ID = bytes.fromhex("060a0000 0200000000000001")
NEXT_HOP = bytes.fromhex("07060100 c0000201")
INTERVAL = 400
MOST_BODY = 1_400
INFINITY = 0xFFFF
WILDCARD = bytes.fromhex("080a0000 0000 0190 0001 ffff")


@functools.lru_cache(1 << 17)
def update(key, interval=INTERVAL, metric=256):
    """An Update of the route with this number: hosts of IPv4, and every fourth of IPv6."""
    encoding, octets = (2, 16) if key % 4 == 3 else (1, 4)
    address = (10 << 24 if encoding == 1 else 0x2001_0DB8 << 96) + key
    fixed = struct.pack(">6BHHH", 8, 10 + octets, encoding, 0, 8 * octets, 0, interval, 1, metric)
    return fixed + address.to_bytes(octets, "big")


def packets_of(updates, most=MOST_BODY):
    """Packets of at most so many octets with these Updates."""
    body = ROUTER_ID + NEXT_HOP
    for each in updates:
        if len(body) + len(each) > most:
            yield babel(body)
            body = ROUTER_ID + NEXT_HOP
        body += each
    yield babel(body)


def rounds(each_round, step=4 * SECOND, sender=SENDER):
    """In each round the packets of some Updates, from the same times on, a millisecond apart."""
    for turn in itertools.count():
        start = made.TIME + turn * step
        for place, packet in enumerate(packets_of(each_round(turn))):
            yield start + place * SECOND // 1_000, frame_of(packet, sender)


def refreshed(rng):
    """20,000 routes, announced every 4 seconds: 200 of them are left out in most rounds, so that
    they expire, and come again."""
    lost = {turn: set(rng.sample(range(20_000), 200)) for turn in range(64)}
    keys = lambda turn: (key for key in range(20_000) if key not in lost[turn // 6 % 64])
    return rounds(lambda turn: map(update, keys(turn)))


def changing(rng):
    """20,000 routes whose metric is another one each time."""
    order = rng.sample(range(20_000), 20_000)
    return rounds(lambda turn: (update(key, metric=256 + turn % 2) for key in order))


def expiring(rng):
    """20,000 routes, which all expire at few times, and are announced again."""
    order = rng.sample(range(20_000), 20_000)
    return rounds(lambda turn: (update(key, interval=100) for key in order), 10 * SECOND)


def shortening(rng):
    """20,000 routes, each with a shorter Interval each time, so that each expires before what was
    known."""
    order = rng.sample(range(20_000), 20_000)
    return rounds(lambda turn: (update(key, 60_000 - 200 * (turn % 290)) for key in order), SECOND)


def retracted(rng):
    """20,000 routes, all retracted at once, and announced again."""
    order = rng.sample(range(20_000), 20_000)
    return rounds(lambda turn: [WILDCARD, *map(update, order)])


def fragments(_rng):
    """20,000 routes, announced again and again in 4,600 packets of some 4,000 octets, each of which
    comes in four fragments."""
    packets = [made.udp(packet) for packet in packets_of(map(update, range(20_000)), 4_000)]
    for number in range(4_600):
        time = made.TIME + number * SECOND // 1_000
        for piece in made.fragments(SENDER, packets[number % len(packets)], 126, number):
            yield time, made.ethernet(piece)


def many_tables(rng):
    """60,000 senders, who announce three routes each, again and again, in any order."""
    senders = [f"fe80::{place + 1:x}" for place in range(60_000)]
    frames = [
        frame_of(babel(ROUTER_ID + NEXT_HOP + b"".join(map(update, (place, place + 1, 7)))), sender)
        for place, sender in enumerate(senders)
    ]
    time = made.TIME
    while True:
        for frame in rng.choices(frames, k=PIECE):
            time += SECOND // 10_000
            yield time, frame


def nested(destination, source):
    """An Update of the two prefixes of these lengths in which the last address is."""
    prefix = lambda length: b"\xff" * (length // 8) + bytes(
        (0xFF00 >> length % 8 & 0xFF,) * (length % 8 > 0)
    )
    octets = prefix(destination)
    if source:
        octets += bytes((128, 1 + len(prefix(source)), source)) + prefix(source)
    fixed = struct.pack(">6BHHH", 8, 10 + len(octets), 2, 0, destination, 0, INTERVAL, 1, 256)
    return fixed + octets


def padded(rng):
    """16,641 routes in one another, and then no route, but Pad1s and Hellos."""
    rows = [nested(*lengths) for lengths in itertools.product(range(129), repeat=2)]
    tlvs = bytes(686) + HELLO * 87
    return rounds(lambda turn: [tlvs] * 100 if turn else rows)


def said_again(rng):
    """65,536 routes, and then one of them again and again."""
    return rounds(lambda turn: map(update, [7] * 20_000 if turn else range(65_536)))


def wildcards(rng):
    """262,143 routes, all retracted at once, and announced again."""
    return rounds(lambda turn: [WILDCARD, *map(update, range(262_143))])


def used_again(rng):
    """131,072 routes, announced, and each retracted, in another order each time."""
    announce, retract = update, functools.partial(update, metric=INFINITY)
    keys = range(131_072)
    return rounds(lambda turn: map((announce, retract)[turn % 2], rng.sample(keys, len(keys))))


def jumping(rng):
    """65,536 routes, a packet each, whose times jump within 3 seconds."""
    for turn in itertools.count():
        for key in range(65_536):
            time = made.TIME + rng.randrange(3 * SECOND)
            yield time, frame_of(babel(ROUTER_ID + NEXT_HOP + update(key)))


def of_each(senders, routes):
    """A packet of each sender, with so many routes; there are 500 router-ids."""
    for place in range(senders):
        router_id = bytes.fromhex("060a0000 02000000") + made.number(place % 500, 4)
        updates = (update(place % 97 + key, metric=place % 4_000) for key in range(routes))
        packet = babel(router_id + NEXT_HOP + b"".join(updates))
        yield made.TIME + place, frame_of(packet, f"fe80::{place + 1:x}")


def one_packet_each(rng):
    """41,413 senders with a route each."""
    return of_each(41_413, 1)


def rows_each(rng):
    """1,000 senders with 200 routes each."""
    return of_each(1_000, 200)


TIMED = (
    refreshed,
    changing,
    expiring,
    shortening,
    retracted,
    many_tables,
    padded,
    said_again,
    wildcards,
    used_again,
    jumping,
    one_packet_each,
    rows_each,
    fragments,
)


def write_timed(path, records):
    with open(path, "wb") as file:
        written = file.write(made.pcap([]))
        for time, frame in records:
            seconds, part = divmod(time, SECOND)
            octets = len(frame), len(frame)
            written += file.write(struct.pack("<4L", seconds, part // 1_000, *octets) + frame)
            if written > TIMED_OCTETS:
                return


def main():
    parser = argparse.ArgumentParser(
        description=__doc__, formatter_class=argparse.RawDescriptionHelpFormatter
    )
    parser.add_argument("folder", type=pathlib.Path)
    parser.add_argument("--seed", type=int, default=1)
    parser.add_argument("--only", default="", help="the captures whose name has this word")
    options = parser.parse_args()
    folder = options.folder
    folder.mkdir(parents=True, exist_ok=True)
    random_of = lambda name: random.Random(f"{options.seed} {name}")
    for name, write_one in {
        "frames.pcap": write_frames,
        "one-sender.pcap": write_one_sender,
        "small-packets.pcapng": write_small_packets,
        "many-senders.pcap": write_senders,
        "zeros.pcap": write_zeros,
    }.items():
        if options.only in name:
            write_one(folder / name, random_of(name.split(".")[0]))
    for made_of in TIMED:
        name = made_of.__name__.replace("_", "-")
        if options.only in f"{name}.pcap":
            write_timed(folder / f"{name}.pcap", made_of(random_of(name)))


if __name__ == "__main__":
    main()
