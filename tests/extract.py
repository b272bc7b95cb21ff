"""`senders` and `extract`: over captures made of the dumps of examples/routers, beside a plain
reader of captures."""

import concurrent.futures
import functools
import itertools
import os
import random
import resource
import shutil
import signal
import subprocess
import tempfile
import time
from dataclasses import dataclass

import capture_files as made
import capture_reader as reader
from checks import ROUTERS, built_program

from agree import SENDERS

PCAP = ROUTERS / "babeld-basic-a.pcap"
NAME = "babeld-basic-a"
SENDER = SENDERS[NAME]
OTHER = "fe80::5eff:fe00:c602"
OVER_IPV4 = "192.0.2.1"
GLOBAL = "2001:db8::1"
ORDERS = "little", "big"
SECONDS = 120
# What the octets of a small capture are changed to: two values, and two of their bits turned over.
VALUES = (lambda _: 0, lambda _: 0xFF, lambda octet: octet ^ 1, lambda octet: octet ^ 0x80)
FRAMING = "truncated packet", "bad magic", "bad version"
LITTLE_MEMORY = 8 << 20


@dataclass
class Case:
    """A command over a capture, and what it has to answer."""

    what: str
    words: list
    capture: bytes
    answer: reader.Answer


def words_of(options):
    """The options of a command, by the names that the plain reader has for them."""
    words = []
    for name, value in options.items():
        if value is None:
            continue
        word = {"as_hex": "--hex", "as_json": "--json", "limit": "--max-octets"}.get(
            name, "--" + name.replace("_", "-")
        )
        words += [word] if value is True else [word, str(value)]
    return words


def senders_of(what, capture, **options):
    return Case(what, ["senders", *words_of(options)], capture, reader.senders(capture, **options))


def extract_of(what, capture, sender=SENDER, **options):
    words = ["extract", "--from", sender, *words_of(options)]
    return Case(what, words, capture, reader.extract(capture, sender, **options))


def both_of(what, capture, sender=SENDER):
    return [senders_of(what, capture), extract_of(what, capture, sender)]


def dump_of(name=NAME):
    return (ROUTERS / f"{name}.dump").read_bytes()


# ---- captures of the dumps


def records_of(dump, sender=SENDER, frame_of=made.ethernet, interface=0, **how):
    """A frame for each packet of a dump."""
    return [
        made.Record(frame_of(made.ip(sender, made.udp(packet), **how)), interface)
        for packet in made.packets_of(dump)
    ]


def containers(dump, sender):
    """Captures of a dump alone, in each way to write one."""
    records = records_of(dump, sender)
    for order in ORDERS:
        for nanoseconds in False, True:
            yield f"pcap, {order}, {'nano' if nanoseconds else 'micro'}seconds", made.pcap(
                records, 1, order, nanoseconds
            )
        yield f"pcapng, {order}", made.pcapng(records, (1,), order)
        old = b"".join(
            made.old_packet(each, order, made.option(1, b"old", order)) for each in records
        )
        yield (
            f"pcapng of old packet blocks, {order}", made.section(order)
            + made.interface(1, order)
            + old
        )
        simple = b"".join(made.simple(each, order) for each in records)
        yield (
            f"pcapng of simple packets, {order}", made.section(order)
            + made.interface(1, order)
            + simple
        )
        other = [made.Record(made.ethernet(made.ip(OTHER, made.udp(b"\x2a\2\0\0"))))]
        before = made.pcapng(other, (1, 147), {"little": "big", "big": "little"}[order])
        yield f"pcapng of two sections, {order}", before + made.pcapng(
            records_of(dump, sender, interface=1), (147, 1), order
        )


TAGS = {
    "no tag": (),
    "a tag": (0x8100,),
    "a tag for priority": ((0x8100, 0),),
    "the tags of old": (0x9100, 0x9200),
    "two tags": ((0x88A8, 10), (0x8100, 20)),
    "a tag for priority, and one more": ((0x8100, 0), (0x8100, 4_095)),
    "four tags": (0x88A8, 0x8100, 0x8100, 0x8100),
    "five tags": (0x8100,) * 5,
}


def frames():
    """Each link type, as its number and how a frame of it is made of a packet."""
    for name, tags in TAGS.items():
        yield f"Ethernet with {name}", 1, lambda packet, tags=tags: made.ethernet(packet, tags)
        yield f"cooked with {name}", 113, lambda packet, tags=tags: made.cooked(packet, tags)
        yield f"cooked, version 2, with {name}", 276, lambda packet, tags=tags: made.cooked2(
            packet, 7, tags
        )
    yield "Ethernet with padding", 1, lambda packet: made.ethernet(
        packet, padding=b"\x2a\2\0\0" * 5
    )
    for order in ORDERS:
        for family in 10, 24, 28, 30, 11:
            null = functools.partial(made.after_family, order=order, ipv6=family)
            yield f"null, {order}, family {family}", 0, null
    yield "loop", 108, lambda packet: made.after_family(packet, "big", 24)
    for link in 12, 14, 101, 228, 229, 147:
        yield f"link type {link}", link, lambda packet: packet


HEADERS = {
    "hop-by-hop options": [made.HOP_BY_HOP],
    "a routing header": [made.ROUTING],
    "destination options": [made.DESTINATION],
    "three headers": [made.HOP_BY_HOP, made.ROUTING, made.DESTINATION],
    "eight headers": [made.HOP_BY_HOP, made.DESTINATION] * 4,
    "nine headers": [made.HOP_BY_HOP, made.DESTINATION] * 4 + [made.ROUTING],
    "an atomic fragment": [made.DESTINATION, made.fragment_header(0, False)],
    "an atomic fragment with reserved bits": [made.fragment_header(0, False, 3)],
    "a first fragment": [made.fragment_header(0, True)],
    "a first fragment with reserved bits": [made.fragment_header(0, True, 3)],
    "two first fragments": [made.fragment_header(0, True), made.fragment_header(0, True)],
    "two atomic fragments": [made.fragment_header(0, False), made.fragment_header(0, False)],
    "a first fragment in an atomic one": [made.fragment_header(0, more) for more in (False, True)],
    "an atomic fragment in a first one": [made.fragment_header(0, more) for more in (True, False)],
    "a later fragment": [made.fragment_header(185, False)],
    "a header that is not known": [made.extension(139, 0, b"")],
}
OPTIONS = {"options of IPv4": b"\x94\4\0\0", "the most options of IPv4": b"\1" * 40}
FRAGMENTS = {
    "a first fragment over IPv4": 0x2000,
    "a later fragment over IPv4": 0x20B9,
    "a last fragment over IPv4": 0x00B9,
    "not to be fragmented": 0x4000,
    "the reserved bit of IPv4": 0x8000,
    "a first fragment over IPv4 with the other bits": 0xE000,
}
DATAGRAMS = {
    "trailers after the bodies": lambda packet: made.udp(packet + b"\x10\x22" + b"\x2a\2" * 17),
    "octets after the datagrams": lambda packet: made.udp(packet) + b"\x2a\2\0\0",
    "sent from the port alone": lambda packet: made.udp(packet, destination=6_697),
    "sent to the port alone": lambda packet: made.udp(packet, source=5_353),
    "other ports": lambda packet: made.udp(packet, 6_697, 6_695),
    "no length of UDP": lambda packet: made.udp(packet, length=0),
    "a length of UDP that is too long": lambda packet: made.udp(packet, length=9 + len(packet)),
    "a length of UDP that is too short": lambda packet: made.udp(packet, length=7 + len(packet)),
    "a wrong magic": lambda packet: made.udp(b"\x2b" + packet[1:]),
    "a wrong version": lambda packet: made.udp(packet[:1] + b"\3" + packet[2:]),
    "a part of the header": lambda packet: made.udp(packet[:3]),
    "a part of the body": lambda packet: made.udp(packet[:-1]),
    "no payload": lambda packet: made.udp(b""),
}


def variants(dump, sender):
    """Captures of a dump with something round each of its packets: the name, the records, the
    sender."""
    for name, headers in HEADERS.items():
        yield name, records_of(dump, sender, headers=headers), sender
    for address in "fe7f::1", "fe80::", "febf:ffff::1", "fec0::1", "::1", GLOBAL:
        yield f"sent by {address}", records_of(dump, address), address
    for name, options in OPTIONS.items():
        yield name, records_of(dump, OVER_IPV4, options=options), OVER_IPV4
    for name, fragment in FRAGMENTS.items():
        yield name, records_of(dump, OVER_IPV4, fragment=fragment), OVER_IPV4
    for name, datagram in DATAGRAMS.items():
        packets = map(datagram, made.packets_of(dump))
        frames = (made.ethernet(made.ip(sender, packet)) for packet in packets)
        yield name, [made.Record(frame) for frame in frames], sender
    yield "another protocol", records_of(dump, sender, protocol=6), sender
    for what, length in ("too long", 1_500), ("too short", 20), ("shorter than a header", 7):
        yield f"a length of IPv6 that is {what}", records_of(dump, sender, length=length), sender
        records = records_of(dump, OVER_IPV4, total=20 + length)
        yield f"a length of IPv4 that is {what}", records, OVER_IPV4


NOISE = [
    made.ethernet(made.ip(OTHER, made.udp(b"\x2a\2\0\2\1\0"))),
    made.ethernet(made.ip(SENDER, made.udp(b"\x2a\2\0\2\1\0", 53, 53))),
    made.ethernet(made.ip(OVER_IPV4, made.udp(b"\x2a\2\0\0"))),
    made.ethernet(made.ip(SENDER, made.udp(b"\x2a\2\0\7\1\0"))),
    made.ethernet(made.ip(SENDER, made.udp(b"GET /"))),
    made.ethernet(made.ip(SENDER, made.udp(b"\x2a\1\0\0"))),
    made.ethernet(made.ip(OTHER, made.udp(b"\x2a\2\0\0"), headers=[made.fragment_header(0, True)])),
    made.ethernet(made.ip(SENDER, made.udp(b"\x2a\2\0\0", 5_353))),
    made.ethernet(made.ip(GLOBAL, made.udp(b"\x2a\2\0\0"))),
    made.ethernet(made.ip(SENDER, made.udp(b"\x2a\2\0\0")))[:40],
    made.ethernet(made.ip(SENDER, b"\x80\0\0\0", protocol=58)),
    made.MACS + b"\x08\x06" + bytes(28),
    b"",
]


def noise(frame, interface=0):
    """A record of this frame; of one without an octet, which had 60, since a record of a frame that
    had none is refused."""
    return made.Record(frame, interface, None if frame else 60)


def among_others(dump, interface=0):
    """The records of a dump, each after two that are not of it."""
    rng = random.Random(1)
    for record in records_of(dump, interface=interface):
        yield from (noise(frame, interface) for frame in rng.choices(NOISE, k=2))
        yield record


def dump_cases(tally):
    """Each dump in many captures. Where a capture has nothing else of its sender, the plain reader
    finds the dump."""
    for name, sender in SENDERS.items():
        dump = dump_of(name)
        for what, capture in containers(dump, sender):
            whole = extract_of(f"{name}, {what}", capture, sender)
            expect(
                tally,
                f"the plain reader, {whole.what}",
                without_notes(whole.answer),
                reader.Answer(0, dump),
            )
            yield from (whole, senders_of(whole.what, capture))
        for what, link, frame_of in frames():
            of = OVER_IPV4 if link == 228 else sender
            yield from both_of(
                f"{name}, {what}", made.pcap(records_of(dump, of, frame_of), link), of
            )
        for place, (what, records, of) in enumerate(variants(dump, sender)):
            capture = made.pcapng(records) if place % 2 else made.pcap(records)
            yield from both_of(f"{name}, {what}", capture, of)
    whole = extract_of("the capture of the repository", PCAP.read_bytes())
    expect(
        tally,
        "the plain reader, the capture of the repository",
        whole.answer,
        reader.Answer(0, dump_of()),
    )
    yield from (whole, senders_of(whole.what, whole.capture))


def option_cases():
    """Each option, over captures of several senders and places."""
    records = list(among_others(dump_of()))
    elsewhere = list(among_others(dump_of("babeld-retract"), 1))[:30]
    in_turn = [each for pair in zip(records, elsewhere) for each in pair]
    for what, capture in (
        ("one interface", made.pcap(records)),
        ("two interfaces", made.pcapng(in_turn, (1, 1))),
        ("no packets", made.pcap([])),
        ("no interfaces", made.section()),
    ):
        yield senders_of(what, capture)
        yield senders_of(what, capture, as_json=True)
        yield senders_of(what, capture, strict=True)
        yield from (
            extract_of(what, capture, sender)
            for sender in (SENDER, OTHER, OVER_IPV4, GLOBAL, "::1")
        )
        yield from (
            extract_of(what, capture, interface=place)
            for place in ("0", "1", "0/3", "0:7", str(2**64 - 1))
        )
        yield extract_of(what, capture, as_hex=True)
        yield extract_of(what, capture, interface="0", as_hex=True)
        yield from (extract_of(what, capture, sender, strict=True) for sender in (SENDER, OTHER))
        yield extract_of(what, capture, interface="0", strict=True)


def tagged(*tags):
    return lambda packet: made.ethernet(packet, tags)


def linked(link, *tags):
    return lambda packet: made.cooked2(packet, link, tags)


def one_sender_at(*frames_of):
    """The packets of a dump in turn, in frames of the one kind, of the next, and so on."""
    packets = made.packets_of(dump_of())
    return [
        made.Record(frames_of[place % len(frames_of)](made.ip(SENDER, made.udp(packet))))
        for place, packet in enumerate(packets)
    ]


def places():
    """Captures of one sender at several places, with how `--interface` asks for each."""
    vlans = one_sender_at(tagged((0x8100, 10)), tagged((0x8100, 20)))
    yield "two VLANs", made.pcap(vlans), ("0:10", "0:20")
    yield "a VLAN and none", made.pcap(one_sender_at(tagged(), tagged(0x8100))), ("0", "0:7")
    stacked = [
        tagged((0x88A8, outer), (0x8100, inner))
        for outer, inner in ((10, 20), (20, 10), (10, 21), (10, 0), (0, 10))
    ]
    yield "stacked VLANs", made.pcap(one_sender_at(*stacked)), (
        "0:10", "0:10.20", "0:10.21", "0:20.10"
    )
    links = one_sender_at(linked(3), linked(4), linked(2**32 - 1), linked(3, (0x8100, 10)))
    yield "links of Linux cooked, version 2", made.pcap(links, 276), (
        "0/3", "0/4", f"0/{2**32 - 1}", "0/3:10"
    )
    links = one_sender_at(made.cooked, made.cooked)
    yield "two links of Linux cooked, version 1", made.pcap(links, 113), ("0",)
    machine = made.pcapng(one_sender_at(linked(2)), (276,))
    yield "two machines, merged", machine + machine, ("0/2", "1/2")
    one, other = records_of(dump_of()), records_of(dump_of("babeld-retract"), SENDER, linked(0), 1)
    yield "an interface beside a link of its number", made.pcapng([*one, *other], (1, 276)), (
        "0", "1/0"
    )
    for count in 16, 17, 19:
        many = one_sender_at(*(tagged((0x8100, vlan)) for vlan in range(1, count + 1)))
        yield f"{count} VLANs", made.pcap(many), ("0:1", f"0:{count}")


def place_cases():
    for what, capture, asked in places():
        yield from both_of(what, capture)
        yield senders_of(what, capture, as_json=True)
        yield from (
            extract_of(what, capture, interface=place)
            for place in (*asked, "0", "1", "0:11", "0/5", "0:10.20.30", "3")
        )
        yield extract_of(what, capture, strict=True)


NAMES = {
    "a name": b"eth0",
    "a name of all marks": b"br-lan.10_a",
    "a name of other octets": b"a b\"\\\xc3\xa4\0\x7f",
    "an empty name": b"",
}


def name_cases():
    """The names of interfaces, and the options round them."""
    record, *_ = records_of(dump_of())
    for order in ORDERS:
        end, option = made.option(0, b"", order), lambda code, text, order=order: made.option(
            code, text, order
        )
        for what, options in (
            *((what, made.named(name, order)) for what, name in NAMES.items()),
            ("a name after a comment", option(1, b"abc") + made.named(b"eth1", order)),
            ("two names", option(2, b"eth1") + made.named(b"eth2", order)),
            ("an empty name, and a name", option(2, b"") + made.named(b"eth2", order)),
            ("a name after the options", end + made.named(b"eth3", order)),
            ("a name without an end of options", option(2, b"eth4")),
            (
                "an option past its block",
                option(2, b"eth5")[:2] + made.number(5, 2, order) + b"eth5",
            ),
            (
                "a comment past its block",
                option(2, b"eth5") + made.number(1, 2, order) + made.number(9, 2, order) + b"long",
            ),
            (
                "times in eighths of a second, an hour before",
                option(9, b"\x83")
                + option(14, (-3_600).to_bytes(8, order, signed=True))
                + option(2, b"eth7")
                + end,
            ),
            ("two resolutions of times", option(9, b"\6") + option(9, b"\x09") + end),
            ("a resolution without an octet", option(9, b"") + option(2, b"eth8") + end),
            ("a resolution of two octets", option(9, b"\6\6") + option(2, b"eth8") + end),
            ("an offset of four octets", option(14, bytes(4)) + option(2, b"eth8") + end),
            ("an offset of nine octets", option(14, bytes(9)) + option(2, b"eth8") + end),
            ("a bad resolution after the end of options", end + option(9, b"")),
            (
                "an end of options with a length",
                option(2, b"eth6") + end[:2] + made.number(9, 2, order),
            ),
        ):
            capture = (
                made.section(order)
                + made.interface(1, order, options=options)
                + made.enhanced(record, order)
            )
            yield from both_of(f"{what}, {order}", capture)
            yield senders_of(f"{what}, {order}", capture, as_json=True)
    two = made.section() + made.interface(options=made.named(b"eth0")) + made.enhanced(record)
    two += made.section() + made.interface(options=made.named(b"eth1")) + made.enhanced(record)
    yield from both_of("names in two sections", two)


# What one octet says of how many units of time a second has, and the seconds that are added.
RESOLUTIONS = None, 0, 3, 6, 9, 12, 19, 20, 28, 29, 39, 127, 128, 131, 138, 157, 191, 192, 255
OFFSETS = None, 1, -3_600, 1_700_000_000, -(2**63), 2**63 - 1
STAMPS = 0, 1, 999_999, 1_700_000_000, 1_764_077_422_123_456, 2**60 + 1, 2**63, 2**64 - 1
# Between these moments, and at them, a capture is read.
MOMENTS = "+0", "+2", "+2.000001999", "+2.000002", "+2.000002001", "+90", "@1700000003.000003"
MOMENTS += "2023-11-14T22:13:24.000004Z", "2023-11-15T00:13:25+02:00", "2023-11-14T12:13-10:00"


def time_cases():
    """The times of packets, and captures between two moments."""
    record, *_ = records = records_of(dump_of())[:6]
    for order in ORDERS:
        for resolution in RESOLUTIONS:
            for offset in OFFSETS:
                options = made.counted(resolution, offset, order)
                head = made.section(order) + made.interface(1, order, options=options)
                for time in STAMPS:
                    capture = head + made.enhanced(record, order, time=time)
                    what = f"{order}, resolution {resolution}, offset {offset}, {time}"
                    yield senders_of(what, capture)
                    yield senders_of(what, capture, since="@0.5")
        # Each interface counts on its own, over all sections.
        both = made.section(order)
        both += made.interface(1, order, options=made.counted(9, None, order))
        both += made.interface(1, order, options=made.counted(0, 0, order))
        for interface, time in (0, 1_700_000_000 * 10**9 + 7), (1, 1_700_000_001):
            both += made.enhanced(made.Record(record.frame, interface), order, time=time)
        yield senders_of(f"two resolutions, {order}", both + both)
        yield senders_of(f"two resolutions from the first, {order}", both + both, since="+1")
        for nanoseconds in False, True:
            times = [(1_700_000_000, 999_999_999), (2**32 - 1, 2**32 - 1), (5, 0), (5, 1), (9, 0)]
            capture = made.pcap(records, 1, order, nanoseconds, times=times + [(8, 999_999)])
            for since in None, "@5.000001", "@5.000000001", "+0", "@9":
                what = f"times in no order, {order}, {nanoseconds}"
                yield senders_of(what, capture, since=since, as_json=True)
                yield extract_of(what, capture, until=since or "@8.5")
    captures = made.pcap(records), made.pcapng(records), made.pcap(list(among_others(dump_of())))
    for capture in captures:
        for moment in MOMENTS:
            yield senders_of("from a moment on", capture, since=moment)
            yield extract_of("up to a moment", capture, until=moment)
            yield senders_of("up to a moment, cut", capture[:-3], until=moment, accept_cut=True)
            yield extract_of("from a moment on, strict", capture, since=moment, strict=True)
        yield from (
            extract_of("between two moments", capture, since=since, until=until)
            for since in MOMENTS
            for until in MOMENTS
        )
    simple = made.section() + made.interface() + made.simple(record)
    for what, capture in ("a simple packet", simple), (
        "a simple packet after others", made.pcapng(records) + made.simple(record)
    ):
        yield senders_of(what, capture)
        yield senders_of(what, capture, until="+1")
        yield extract_of(what, capture, since="@0")
    for word in "now", "+", "@", "+1.", "2023-11-14", "2023-11-14T22:13:60Z", "1969-12-31T23:59Z":
        yield senders_of("no time", captures[0], since=word)
        yield extract_of("no time", captures[0], until=word)
    yield from skipped_cases(records)


def skipped_cases(records):
    """What is skipped has no datagram that could refuse the dump, but an interface and a link
    type."""
    first = made.ip(SENDER, made.udp(b"\x2a\2\0\0"), headers=[made.fragment_header(0, True)])
    fragment = made.Record(made.ethernet(first))
    capture = made.pcap([*records, fragment])
    for until in "+5.9", "+6.1":
        yield extract_of("a fragment at the end", capture, until=until)
        yield senders_of("a fragment at the end", capture, until=until, strict=True)
    for what, number, links in ("another link type", 1, (1, 147)), ("no interface", 2, (1, 1)):
        other = made.pcapng([records[0], made.Record(fragment.frame, number)], links)
        yield from (senders_of(what, other, until=until) for until in ("+0", "+9"))


def version_cases():
    """Versions of pcap files and of sections."""
    record, *_ = records_of(dump_of())
    for order in ORDERS:
        for version in (2, 4), (2, 3), (2, 5), (1, 4), (4, 2), (543, 0):
            yield from both_of(
                f"pcap {version}, {order}", made.pcap([record], 1, order, version=version)
            )
        for version in (1, 0), (1, 1), (1, 2), (1, 3), (0, 0), (2, 0):
            head = made.section(order, version=version) + made.interface(1, order)
            yield from both_of(f"pcapng {version}, {order}", head + made.enhanced(record, order))
            yield from both_of(
                f"pcapng {version} in a later section, {order}",
                made.pcapng([record], (1,), order) + head,
            )


def snapped_cases():
    """A record of which the recorder kept each number of octets; and the same of another sender."""
    for what, frame_of, sender, how in (
        ("Ethernet", made.ethernet, SENDER, {"headers": [made.DESTINATION]}),
        ("Ethernet", made.ethernet, OVER_IPV4, {"options": b"\1\1\1\1"}),
    ):
        first, second, *_ = records_of(dump_of(), sender, frame_of, **how)
        for kept in range(len(first.frame)):
            capture = made.pcap([second, made.snapped(first, kept)])
            yield from both_of(f"{what}, {sender}, {kept} octets kept", capture, sender)
            yield extract_of(f"{what}, {sender}, {kept} octets of another kept", capture, OTHER)
            # What was sliced says that it had no more.
            yield from both_of(
                f"{what}, {sender}, sliced to {kept} octets",
                made.pcap([second, made.sliced(first, kept)]),
                sender,
            )
    for what, link, frame_of in (
        ("with tags", 1, tagged(0x88A8, 0x8100)),
        ("Linux cooked, version 2", 276, linked(3)),
        ("null", 0, made.after_family),
        ("raw IP", 101, lambda packet: packet),
    ):
        first, *_ = records_of(
            dump_of(), SENDER, frame_of, headers=[made.HOP_BY_HOP, made.fragment_header(0, False)]
        )
        for kept in range(len(first.frame)):
            yield from both_of(
                f"{what}, sliced to {kept} octets", made.pcap([made.sliced(first, kept)], link)
            )
            yield from both_of(
                f"{what}, {kept} octets kept", made.pcap([made.snapped(first, kept)], link)
            )
    # A simple packet has as many octets as its interface keeps.
    first, *_ = records_of(dump_of())
    for snap in range(0, len(first.frame) + 2, 7):
        kept = first.frame[:snap] if snap else first.frame
        simple = made.simple(made.Record(kept, 0, len(first.frame)))
        yield from both_of(
            f"a simple packet of an interface that keeps {snap}",
            made.section() + made.interface(snap=snap) + simple,
        )
    # Padding that was not kept cuts nothing of the datagram.
    padded = made.Record(first.frame + bytes(20))
    yield from both_of(
        "padding that was not kept", made.pcap([made.snapped(padded, len(first.frame))])
    )


FRAMES = {"no tag": made.ethernet, "two tags": tagged(0x88A8, 0x8100)}


def fragment_cases():
    """Datagrams in fragments: of some sizes, in some order, several at once, some twice; and what
    is not whole, or overlaps."""
    rng = random.Random(63)
    packets = made.packets_of(dump_of())
    for sender, (tags, frame_of), turn in itertools.product(
        (SENDER, OVER_IPV4), FRAMES.items(), range(4)
    ):
        parts, order = fragmented(rng, sender, packets, frame_of)
        whole = made.pcap(records_of(b"".join(packets[at] for at in order), sender, frame_of))
        what = f"fragments with {tags}, {sender}, {turn}"
        capture = made.pcap([made.Record(part) for part in parts])
        case = extract_of(what, capture, sender)
        assert case.answer.output == reader.extract(whole, sender).output, what
        yield case
        yield senders_of(what, capture)
        lost = rng.randrange(len(parts))
        capture = made.pcap([made.Record(part) for part in parts[:lost] + parts[lost + 1 :]])
        yield from both_of(f"{what}, one lost", capture, sender)
        for strict in None, True:
            how = {"accept_missing": True, "strict": strict}
            yield extract_of(f"{what}, one lost, which is accepted", capture, sender, **how)
        yield extract_of(f"{what}, one lost of another", capture, OTHER)
        snapped = list(map(made.Record, parts))
        snapped[lost] = made.snapped(snapped[lost], len(parts[lost]) - 1)
        cut = f"{what}, one cut by the recorder"
        yield extract_of(cut, made.pcap(snapped), sender, accept_missing=True)
        cut = with_one(rng, parts, lambda part: part[:-8])
        yield from both_of(f"{what}, one cut", cut, sender)
        yield extract_of(f"{what}, one cut, fragments accepted", cut, sender, accept_missing=True)
        yield from both_of(f"{what}, one other", with_one(rng, parts, changed_last), sender)
        yield from fragments_in_time(what, parts, sender)


def check_tshark(tally):
    """Datagrams in fragments, in any order and several at once, beside what tshark puts together,
    where it is there."""
    if shutil.which("tshark") is None:
        print("extract: there is no command tshark on the PATH; it is not compared", flush=True)
        return
    rng = random.Random(64)
    packets = made.packets_of(dump_of())
    words = ["tshark", "-r", "-", "-T", "fields", "-e", "udp.payload", "udp.port == 6696"]
    for sender, (tags, frame_of) in itertools.product((SENDER, OVER_IPV4), FRAMES.items()):
        parts, _ = fragmented(rng, sender, packets, frame_of)
        capture = made.pcap(list(map(made.Record, parts)))
        run = subprocess.run(words, input=capture, capture_output=True, timeout=SECONDS)
        dump = bytes.fromhex(run.stdout.decode())
        what = f"fragments with {tags}, {sender}, beside tshark"
        expect(tally, what, reader.extract(capture, sender).output, dump)


def other_fragments():
    """A datagram of other ports in fragments, to the group of routers: in order, and with the first
    one last, or twice, or left out."""
    for sender in SENDER, OVER_IPV4:
        datagram = made.udp(bytes(64), source=53, destination=53)
        first, *later = map(made.ethernet, made.fragments(sender, datagram, 2, 7))
        for what, frames in {
            "in order": [first, *later],
            "the first one last": [*later, first],
            "the first one twice": [first, *later, first, *later],
            "the first one missing": later,
        }.items():
            capture = made.pcap([made.Record(frame) for frame in frames])
            for strict in None, True:
                yield senders_of(f"other ports, {what}, {sender}", capture, strict=strict)
            yield extract_of(f"other ports, {what}, {sender}", capture, sender)


def fragments_in_time(what, parts, sender):
    """The same at the times of their packets, a second apart, or twenty, up to a moment, and from
    it on: a datagram came when its last fragment did."""
    records = [made.Record(part) for part in parts]
    for apart in 1, 20:
        times = [(1_700_000_000 + apart * at, 0) for at in range(len(records))]
        capture = made.pcap(records, times=times)
        for moment in f"+{apart * len(records) // 2}", f"+{apart * (len(records) - 1)}":
            yield senders_of(f"{what}, {apart} s, from {moment}", capture, since=moment)
            yield senders_of(f"{what}, {apart} s, until {moment}", capture, until=moment)
            yield extract_of(f"{what}, {apart} s, until {moment}", capture, sender, until=moment)
            yield extract_of(f"{what}, {apart} s, from {moment}", capture, sender, since=moment)


def fragmented(rng, sender, packets, frame_of):
    """The frames of the fragments of datagrams, of which a few come at a time, in any order, and
    one of ten twice, unless it is all of its datagram; and the order in which these are whole."""
    waiting, frames, order = [], [], []
    for at, packet in enumerate(packets):
        pieces = list(made.fragments(sender, made.udp(packet), rng.randrange(1, 40), at))
        waiting += [(at, frame_of(piece), len(pieces) > 1) for piece in pieces]
        rng.shuffle(waiting)
        room = rng.randrange(20) if at < len(packets) - 1 else 0
        while len(waiting) > room:
            one, frame, is_part = waiting.pop()
            frames += [frame, frame] if is_part and rng.random() < 0.1 else [frame]
            order += [one] if all(one != other for other, *_ in waiting) else []
    return frames, order


def changed_last(frame):
    return frame[:-1] + bytes((frame[-1] ^ 1,))


def with_one(rng, parts, change):
    """A capture of these frames, and of one of them that is changed, after them."""
    one = rng.choice(parts)
    return made.pcap([made.Record(part) for part in [*parts, change(one)]])


def broken_cases():
    """Octets that are no capture, and blocks that can't be."""
    record, *_ = records_of(dump_of())
    for order in ORDERS:
        number = lambda value, count=4: made.number(value, count, order)
        head = made.section(order)
        described = head + made.interface(1, order)
        packet = made.enhanced(record, order)
        for what, capture in (
            ("nothing", b""),
            ("a dump", dump_of()),
            ("the start of a header", made.pcap([], order=order)[:23]),
            (
                "a record that is too long",
                made.pcap([], order=order) + number(0) * 2 + number(262_145) * 2 + bytes(262_145),
            ),
            ("a section header of neither order", head[:8] + b"\x1a\x2b\x3c\x4e" + head[12:]),
            (
                "a section header that is too short",
                number(0x0A0D0D0A) + number(24) + head[8:20] + number(24),
            ),
            ("a section header with another length at its end", head[:-4] + number(32)),
            ("a section header that is not whole", made.section(order, bytes(400))[:100]),
            ("no interface", head + packet),
            ("no interface for a simple packet", head + made.simple(record, order)),
            ("an interface of the section before", described + head + packet),
            ("another interface", described + made.enhanced(made.Record(record.frame, 1), order)),
            ("a description that is too short", head + made.block(1, number(1), order)),
            ("a packet that is too short", described + made.block(6, bytes(16), order)),
            ("an old packet that is too short", described + made.block(2, bytes(16), order)),
            (
                "an old packet that is longer than its block",
                described + made.block(2, bytes(12) + number(5) + number(5) + b"abcd", order),
            ),
            (
                "an old packet of another interface",
                described + made.old_packet(made.Record(record.frame, 1), order),
            ),
            ("a simple packet that is too short", described + made.block(3, b"", order)),
            (
                "a packet that is longer than its block",
                described + made.block(6, bytes(12) + number(5) + number(5) + b"abcd", order),
            ),
            (
                "a simple packet that is longer than its block",
                described + made.block(3, number(5) + b"abcd", order),
            ),
            ("a length that is no multiple of 4", described + number(5) + number(14) + bytes(10)),
            ("a length below 12", described + number(5) + number(8) + number(8)),
            ("a length over 16 MiB", described + number(5) + number((1 << 24) + 4) + bytes(8)),
            ("two lengths", described + packet[:-4] + number(len(packet) + 4)),
            ("an unread link type", head + made.interface(147, order) + packet),
            (
                "an unread link type without packets",
                head + made.interface(147, order) + made.interface(1, order)
                + made.enhanced(made.Record(record.frame, 1), order),
            ),
            ("a link type above 16 bits", made.pcap([record], 1 << 28 | 1, order)),
        ):
            yield from both_of(f"{what}, {order}", capture)


def limit_cases():
    """At the limits of captures, and past them."""
    record, *others = records_of(dump_of())
    capture = made.pcap([record, *others[:2]])
    for limit in 1, 23, 24, 25, len(capture) - 1, len(capture), len(capture) + 1:
        yield extract_of(f"at most {limit} octets", capture, limit=limit)
        yield senders_of(f"at most {limit} octets", capture, limit=limit)
    longest = made.block(5, bytes((1 << 24) - 12))
    yield from both_of(
        "a block of 16 MiB",
        made.section() + made.interface() + longest + made.enhanced(record) + longest,
    )
    yield from both_of(
        "a record of 262,144 octets", made.pcap([record, made.Record(bytes(262_144)), record])
    )
    sent = made.udp(b"\x2a\2\0\0")
    for count in 65_536, 65_537:
        packets = [
            made.Record(made.ip(f"10.{place >> 16}.{place >> 8 & 255}.{place & 255}", sent))
            for place in range(count)
        ]
        packets.append(packets[0])
        yield from both_of(f"{count} senders", made.pcap(packets, 101), "10.0.0.7")
        described = made.section() + made.interface() * count
        yield from both_of(
            f"{count} interfaces", described + made.enhanced(made.Record(record.frame, 65_535))
        )


def small_captures():
    """A pcap file and a pcapng file of few octets, each with two packets of the sender, one of them
    with a trailer, and one of another."""
    packet = b"\x2a\2\0\6\4\4\0\0\x40\0"
    frames = [
        made.ethernet(made.ip(SENDER, made.udp(packet))),
        made.ethernet(made.ip(OTHER, made.udp(packet))),
        made.ethernet(
            made.ip(SENDER, made.udp(packet + b"\x2a"), headers=[made.HOP_BY_HOP]), ((0x8100, 0),)
        ),
    ]
    records = [made.Record(frame) for frame in frames]
    yield "a small pcap", made.pcap(records, order="big")
    yield "a small pcapng", made.pcapng(records[:2]) + made.simple(records[2])


def cut_cases():
    """Every cut of a small capture."""
    for what, capture in small_captures():
        for end in range(len(capture)):
            cut = capture[:end]
            yield from both_of(f"{what}, the first {end} octets", cut)
            yield extract_of(f"{what}, the first {end} octets", cut, accept_cut=True)
        yield senders_of(f"{what} without its last octet", capture[:-1], accept_cut=True)
        yield extract_of(f"{what}, not cut", capture, accept_cut=True)


def changed_cases():
    """Each octet of a small capture, changed."""
    for what, capture in small_captures():
        for place, octet in enumerate(capture):
            for value in sorted({value(octet) for value in VALUES} - {octet}):
                changed = capture[:place] + bytes((value,)) + capture[place + 1 :]
                yield from both_of(f"{what}, {value:#04x} at {place}", changed)


# ---- runs


def expect(tally, what, found, wanted):
    tally.check(what, "" if found == wanted else f"expected {wanted}\nfound {found}")


def run(program, words, capture=b"", **how):
    """What a run answers, but for its hints, and where and when a sender has no packets."""
    done = subprocess.run(
        [program, *words],
        input=capture,
        stdout=subprocess.PIPE,
        stderr=subprocess.PIPE,
        timeout=SECONDS,
        **how,
    )
    lines = done.stderr.decode().splitlines()
    lines = (reader.without_absence(line) for line in lines if not line.startswith("hint: "))
    return reader.Answer(done.returncode, done.stdout, tuple(lines))


def without_notes(answer):
    """The answer without its notes, on standard error and as JSON."""
    lines = answer.output.splitlines(keepends=True)
    return reader.Answer(
        answer.status,
        b"".join(line for line in lines if not line.startswith(b'{"note":')),
        tuple(line for line in answer.errors if not line.startswith("note: ")),
    )


def check_cases(program, cases, tally, of_answer=lambda answer: answer):
    """The program answers as the plain reader does; the dumps that it gave."""
    dumps = set()
    with concurrent.futures.ThreadPoolExecutor(os.cpu_count()) as pool:
        found = lambda case: (case, run(program, case.words, case.capture))
        for case, answer in pool.map(found, cases):
            expect(
                tally,
                f"{' '.join(case.words)}: {case.what}",
                of_answer(answer),
                of_answer(case.answer),
            )
            if case.words[0] == "extract" and answer.status == 0 and "--hex" not in case.words:
                dumps.add(answer.output)
    return dumps


def check_framing(program, dumps, tally):
    """No dump that `extract` gave has a fault of framing."""
    with concurrent.futures.ThreadPoolExecutor(os.cpu_count()) as pool:
        for answer in pool.map(
            lambda dump: run(program, ["show", "--quiet", "--from", "::1"], dump), sorted(dumps)
        ):
            faults = [line for line in answer.errors if line.startswith(FRAMING)]
            expect(tally, "the framing of a dump", faults, [])


def check_pieces(program, tally):
    """A capture that comes in small pieces, one after the other."""
    capture = PCAP.read_bytes()
    for size in 61, 1_500:
        reading = subprocess.Popen(
            [program, "extract", "--from", SENDER, "-"],
            stdin=subprocess.PIPE,
            stdout=subprocess.PIPE,
        )
        for at in range(0, len(capture), size):
            reading.stdin.write(capture[at : at + size])
            reading.stdin.flush()
            time.sleep(0.001)
        output, _ = reading.communicate(timeout=SECONDS)
        expect(
            tally,
            f"a capture in pieces of {size} octets",
            (reading.returncode, output),
            (0, dump_of()),
        )


def check_files(program, folder, tally):
    """A capture is a file, or standard input where it is left out or is -; what is no file is not
    read."""
    wanted = reader.extract(PCAP.read_bytes(), SENDER)
    words = ["extract", "--from", SENDER]
    expect(tally, "a file", run(program, [*words, PCAP]), wanted)
    expect(tally, "-", run(program, [*words, "-"], PCAP.read_bytes()), wanted)
    for file, text in (("nowhere.pcap", "cannot open"), (".", "read failed")):
        for command in words, ["senders"]:
            found = run(program, [*command, file], cwd=folder)
            begins = [line.startswith(text) for line in found.errors]
            expect(
                tally,
                f"{command[0]} {file}",
                (found.status, found.output, begins),
                (4, b"", [True]),
            )


def check_streams(program, tally):
    """Nobody reads what is written: the status is 141. Memory is wanting: the status is 5, and
    nothing is written."""
    for words in ["senders", PCAP], ["extract", "--from", SENDER, PCAP], [
        "extract", "--hex", "--from", SENDER, PCAP
    ]:
        reader_end, writer_end = os.pipe()
        os.close(reader_end)
        ready = lambda: signal.signal(signal.SIGPIPE, signal.SIG_IGN)
        done = subprocess.run(
            [program, *words],
            stdout=writer_end,
            stderr=subprocess.PIPE,
            preexec_fn=ready,
            restore_signals=False,
        )
        os.close(writer_end)
        expect(tally, f"{words[0]}, a closed pipe", (done.returncode, done.stderr), (141, b""))
    packets = made.packets_of(dump_of("frr-basic")) * 1_000
    records = [made.Record(made.ip(SENDER, made.udp(packet))) for packet in packets]
    ready = lambda: resource.setrlimit(resource.RLIMIT_AS, (LITTLE_MEMORY, LITTLE_MEMORY))
    found = run(program, ["extract", "--from", SENDER], made.pcap(records, 101), preexec_fn=ready)
    expect(tally, "extract in little memory", found, reader.Answer(5, errors=("out of memory",)))


def check_way(program, tally):
    """From a capture to an answer: what the dump beside the capture says."""
    words = ["lookup", "--from", SENDER, "--to", "10.1.2.3", "--src", "192.0.2.9"]
    way = f'"$0" extract --from {SENDER} "$1" | "$0" {" ".join(words)}'
    found = subprocess.run(["sh", "-c", way, program, PCAP], capture_output=True, timeout=SECONDS)
    wanted = subprocess.run(
        [program, *words, ROUTERS / f"{NAME}.dump"], capture_output=True, timeout=SECONDS
    )
    expect(
        tally,
        "from a capture to an answer",
        (found.returncode, found.stdout),
        (wanted.returncode, wanted.stdout),
    )


def cases_of(tally):
    yield from dump_cases(tally)
    yield from option_cases()
    yield from place_cases()
    yield from name_cases()
    yield from time_cases()
    yield from version_cases()
    yield from snapped_cases()
    yield from fragment_cases()
    yield from other_fragments()
    yield from broken_cases()
    yield from limit_cases()
    yield from cut_cases()
    yield from changed_cases()


def check(tally, _long):
    program = built_program()
    dumps = check_cases(program, cases_of(tally), tally)
    check_tshark(tally)
    check_framing(program, dumps, tally)
    check_pieces(program, tally)
    check_way(program, tally)
    check_streams(program, tally)
    with tempfile.TemporaryDirectory() as folder:
        check_files(program, folder, tally)
