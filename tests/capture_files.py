"""Captures, made: frames round the packets of a dump, and the blocks of pcap and pcapng round the
frames."""

import ipaddress
from dataclasses import dataclass

BABEL = 6_696
GROUP = {4: "224.0.0.111", 6: "ff02::1:6"}
SECOND = 1_000_000_000
TIME = 1_700_000_000 * SECOND
SNAP = 262_144


def number(value, count=2, order="big"):
    return value.to_bytes(count, order)


def packets_of(dump):
    """The Babel packets of a dump."""
    packets, at = [], 0
    while at < len(dump):
        end = at + 4 + int.from_bytes(dump[at + 2 : at + 4], "big")
        packets.append(dump[at:end])
        at = end
    return packets


# ---- UDP and IP


def udp(payload, source=BABEL, destination=BABEL, length=None):
    """A datagram: RFC 768."""
    length = 8 + len(payload) if length is None else length
    return number(source) + number(destination) + number(length) + b"\0\0" + payload


def ip(sender, carried, **how):
    """A packet of the sender's family, of UDP unless it is said otherwise."""
    sender = ipaddress.ip_address(sender)
    return (ipv4 if sender.version == 4 else ipv6)(sender, carried, **how)


def ipv4(
    sender,
    carried,
    options=b"",
    fragment=0,
    total=None,
    protocol=17,
    to=GROUP[4],
    identification=0x1234,
):
    """RFC 791, 3.1; the options are of whole words."""
    words, total = (
        5 + len(options) // 4, 20 + len(options) + len(carried) if total is None else total
    )
    head = (
        bytes((0x40 + words, 0xC0))
        + number(total)
        + number(identification)
        + number(fragment)
        + bytes((1, protocol))
        + b"\0\0"
    )
    return head + sender.packed + ipaddress.ip_address(to).packed + options + carried


def ipv6(sender, carried, headers=(), length=None, protocol=17, to=GROUP[6]):
    """RFC 8200, 3; extension headers are numbers with the octets that follow the number of the next
    header."""
    numbers = [kind for kind, _ in headers] + [protocol]
    carried = (
        b"".join(bytes((after,)) + octets for after, (_, octets) in zip(numbers[1:], headers))
        + carried
    )
    length = len(carried) if length is None else length
    head = b"\x6c\x00\x00\x00" + number(length) + bytes((numbers[0], 1))
    return head + sender.packed + ipaddress.ip_address(to).packed + carried


def extension(kind, units, octets):
    """A header with so many units of 8 octets after the first (RFC 8200, 4.3 to 4.6), which begins
    with these octets."""
    return kind, bytes((units,)) + octets.ljust(8 * units + 6, b"\0")


# Options that pad, and a routing header without segments left.
HOP_BY_HOP = extension(0, 0, b"\x01\x04")
ROUTING = extension(43, 2, b"\x04\x00")
DESTINATION = extension(60, 1, b"\x01\x0c")


def fragment_header(offset, more, reserved=0, identification=7):
    """RFC 8200, 4.5."""
    flags = number(offset * 8 + reserved * 2 + more)
    return 44, b"\0" + flags + number(identification, 4)


def fragments(sender, carried, size, identification):
    """The packets of the fragments of a datagram, each but the last with so many units of 8
    octets."""
    units = range(0, (len(carried) + 7) // 8, size)
    for offset in units:
        part, more = carried[8 * offset : 8 * (offset + size)], 8 * (offset + size) < len(carried)
        if ipaddress.ip_address(sender).version == 4:
            flags = 0x2000 * more + offset
            yield ip(sender, part, fragment=flags, identification=identification)
        else:
            header = fragment_header(offset, more, identification=identification)
            yield ip(sender, part, headers=[header])


# ---- frames

IPV4, IPV6 = 0x0800, 0x86DD
MACS = bytes.fromhex("333300010006 02005e00c601")


def ether_type(packet):
    return IPV4 if packet[0] >> 4 == 4 else IPV6


def typed(packet, tags=()):
    """The EtherType of a packet, after these tags, and the packet: IEEE 802.1Q, 9. A tag is its
    EtherType, or that and the number of its VLAN, which is 7 where it is left out; its priority is
    1."""
    tags = [tag if isinstance(tag, tuple) else (tag, 7) for tag in tags]
    return (
        b"".join(number(kind) + number(0x2000 + vlan) for kind, vlan in tags)
        + number(ether_type(packet))
        + packet
    )


def ethernet(packet, tags=(), padding=b""):
    """IEEE 802.3, 3.2"""
    return MACS + typed(packet, tags) + padding


def cooked(packet, tags=()):
    """tcpdump.org/linktypes/LINKTYPE_LINUX_SLL.html"""
    return bytes.fromhex("0002 0001 0006 02005e00c601 0000") + typed(packet, tags)


def cooked2(packet, interface, tags=()):
    """tcpdump.org/linktypes/LINKTYPE_LINUX_SLL2.html: the EtherType comes first, and what it is of
    after the header"""
    after = typed(packet, tags)
    return (
        after[:2]
        + b"\0\0"
        + number(interface, 4)
        + bytes.fromhex("0001 02 06 02005e00c601 0000")
        + after[2:]
    )


def after_family(packet, order="little", ipv6=10):
    """tcpdump.org/linktypes/LINKTYPE_NULL.html"""
    return number(2 if packet[0] >> 4 == 4 else ipv6, 4, order) + packet


# ---- captures


@dataclass
class Record:
    """A frame of an interface, how many octets it had: all that are there, unless it is said
    otherwise; and when it came, in nanoseconds since 1970: where it is not said, a second, a
    microsecond and a nanosecond after the one before it."""

    frame: bytes
    interface: int = 0
    whole: int = None
    time: int = None

    def time_at(self, place):
        return TIME + place * (SECOND + 1_001) if self.time is None else self.time

    def lengths(self, order):
        whole = len(self.frame) if self.whole is None else self.whole
        return number(len(self.frame), 4, order) + number(whole, 4, order)


def at_times(records, times):
    """The records at these times, counted as those of records without one."""
    for record, place in zip(records, times):
        yield Record(record.frame, record.interface, record.whole, record.time_at(place))


def snapped(record, kept):
    """The record with so many of its octets."""
    return Record(record.frame[:kept], record.interface, len(record.frame), record.time)


def sliced(record, kept):
    """The record with so many of its octets, as if it had no more."""
    return Record(record.frame[:kept], record.interface)


def pcap(records, link=1, order="little", nanoseconds=False, version=(2, 4), times=None):
    """draft-ietf-opsawg-pcap, 4 and 5; times have seconds and a fraction, and are those of the
    records, if they are left out."""
    magic = 0xA1B23C4D if nanoseconds else 0xA1B2C3D4
    numbers = lambda *values: b"".join(number(value, 4, order) for value in values)
    head = numbers(magic) + number(version[0], 2, order) + number(version[1], 2, order) + numbers(
        0, 0, SNAP, link
    )
    if times is None:
        unit = 1 if nanoseconds else 1_000
        times = [divmod(each.time_at(place), SECOND) for place, each in enumerate(records)]
        times = [(seconds, part // unit) for seconds, part in times]
    return head + b"".join(
        numbers(*time) + each.lengths(order) + each.frame for time, each in zip(times, records)
    )


def block(kind, body, order="little"):
    """draft-ietf-opsawg-pcapng, 3.1."""
    body += bytes(-len(body) % 4)
    length = number(12 + len(body), 4, order)
    return number(kind, 4, order) + length + body + length


def option(code, text, order="little"):
    """draft-ietf-opsawg-pcapng, 3.5."""
    return number(code, 2, order) + number(len(text), 2, order) + text + bytes(-len(text) % 4)


def section(order="little", options=b"", version=(1, 0)):
    """draft-ietf-opsawg-pcapng, 4.1."""
    versions = number(version[0], 2, order) + number(version[1], 2, order)
    return block(0x0A0D0D0A, number(0x1A2B3C4D, 4, order) + versions + b"\xff" * 8 + options, order)


def interface(link=1, order="little", snap=0, options=b""):
    """draft-ietf-opsawg-pcapng, 4.2."""
    return block(1, number(link, 2, order) + b"\0\0" + number(snap, 4, order) + options, order)


def units_of(time, power=6):
    """A time in units of an interface: draft-ietf-opsawg-pcapng, 4.2, if_tsresol."""
    return time * (2 ** (power - 128) if power >= 128 else 10**power) // SECOND


def enhanced(record, order="little", options=b"", place=0, time=None):
    """draft-ietf-opsawg-pcapng, 4.3; the record's time in microseconds, if no units are given."""
    time = units_of(record.time_at(place)) if time is None else time
    head = b"".join(
        number(value, 4, order) for value in (record.interface, time >> 32, time % 2**32)
    )
    return block(
        6,
        head + record.lengths(order) + record.frame + bytes(-len(record.frame) % 4) + options,
        order,
    )


def old_packet(record, order="little", options=b""):
    """The packet block, which the enhanced one replaced: the interface's number and the dropped
    packets in 16 bits each."""
    units = units_of(record.time_at(0))
    head = (
        number(record.interface, 2, order)
        + number(0, 2, order)
        + number(units >> 32, 4, order)
        + number(units % 2**32, 4, order)
    )
    return block(
        2,
        head + record.lengths(order) + record.frame + bytes(-len(record.frame) % 4) + options,
        order,
    )


def counted(power=None, offset=None, order="little"):
    """The options of an interface that counts its times so: draft-ietf-opsawg-pcapng, 4.2."""
    says = b"" if power is None else option(9, bytes((power,)), order)
    if offset is not None:
        says += option(14, offset.to_bytes(8, order, signed=True), order)
    return says + option(0, b"", order)


def named(name, order="little"):
    """The options of an interface with this name: draft-ietf-opsawg-pcapng, 4.2."""
    return option(2, name, order) + option(0, b"", order)


def simple(record, order="little"):
    """draft-ietf-opsawg-pcapng, 4.4."""
    return block(3, record.lengths(order)[4:] + record.frame, order)


def name_resolution(order="little"):
    """draft-ietf-opsawg-pcapng, 4.5: what is skipped."""
    return block(4, number(0, 4, order), order)


def custom(order="little"):
    """draft-ietf-opsawg-pcapng, 4.7: what is skipped, with octets that look like a packet's
    block."""
    return block(0xBAD, number(32_473, 4, order) + enhanced(Record(bytes(60)), order), order)


def pcapng(records, links=(1,), order="little"):
    """One section of these interfaces, with options everywhere and other blocks in between."""
    comment = option(1, b"a comment", order) + option(0, b"", order)
    head = section(order, comment) + b"".join(
        interface(link, order, SNAP, comment) for link in links
    )
    body = b"".join(
        enhanced(each, order, comment, place) + (name_resolution(order) if place % 3 == 1 else b"")
        for place, each in enumerate(records)
    )
    return head + name_resolution(order) + custom(order) + body
