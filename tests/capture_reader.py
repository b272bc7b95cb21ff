"""A plain reader of captures: what `senders` and `extract` have to say of one.

It is written from draft-ietf-opsawg-pcap, draft-ietf-opsawg-pcapng, RFC 791, RFC 768, RFC 8200, RFC
8966 and docs/INPUT.md, for nothing but to be read: it has the whole capture in memory, and each
layer gives the octets of the next one.
"""

import collections
import datetime
import decimal
import fractions
import functools
import ipaddress
import json
import math
import re
from dataclasses import dataclass, field

from reassembly import LIFETIME, Fragment, Known

USUAL_OCTETS = 1 << 30
MOST_INTERFACES = MOST_SENDERS = 65_536
MOST_ANNOUNCING = 2 * MOST_SENDERS
LONGEST_PACKET = 262_144
LONGEST_BLOCK = 16_777_216
BABEL = 6_696
UDP = 17
UPDATE = 8
INFINITY = 0xFFFF
LISTED_PLACES = 16
REASONS = (
    "truncated",
    "bad-magic",
    "bad-version",
    "fragment",
    "snapped",
    "cut-short",
    "other-port",
    "not-link-local",
)
# What refuses a capture whose dump lacks such a datagram.
LACKS = {
    "fragment": "fragments of a datagram missing",
    "cut-short": "datagram cut short",
    "snapped": "datagram cut by the recorder",
}
OTHER, SHORT = "other", "too short to tell"
SECOND = 1_000_000_000
CENTISECOND = SECOND // 100
# The start of the year 10000, in seconds since that of 1970.
YEAR_10000 = 253_402_300_800
# The options of an interface, with the length that they must have: draft-ietf-opsawg-pcapng, 4.2.
NAME, RESOLUTION, OFFSET = 2, 9, 14
LENGTHS = {RESOLUTION: 1, OFFSET: 8}
BACKWARDS = "--since is later than --until"


class Fault(Exception):
    """Why a capture is refused: the line that says so."""


class Blank(Fault):
    """A record without octets begins here, which is an end where a cut is accepted."""

    def __init__(self, at):
        super().__init__(f"bad length at {at}")
        self.at = at


class NoTime(Exception):
    """A word that is no time, or two that are the wrong way round."""


@dataclass
class Packet:
    """A captured packet: the offset of its block, its interface and link type, the octets kept, how
    many there were, and when it came, in nanoseconds since 1970, where its block tells; and which
    section of the capture has it."""

    at: int
    interface: int
    link: int
    frame: bytes
    whole: int
    time: int = None
    section: int = 0


@dataclass
class Seen:
    """A datagram from or to Babel's port: whole, with its payload and where it is sent, or the
    reason why it is not read; its link and VLANs."""

    sender: object
    what: str
    payload: bytes = b""
    destination: object = None
    link: int = None
    vlans: tuple = ()


@dataclass
class Found:
    """What a capture gives: each sender's packets at each place, for each reason the numbers of the
    packets left out, how many frames were too short to tell, and how many packets came in frames
    that name no interface; of each sender at each place how many have octets after the body; and
    the sections in which datagrams of Babel came. The time of the first record; of each that was
    read its number and its time, where it has one that can be told; and in their order the origin,
    the packet, the place among these records and the destination of all packets; and of each origin
    these places. Of the datagrams that were left out the origin, the number, the reason and the
    place among the records. Where senders past 65,536 are not followed, those that were
    met, and the first packet of another."""

    packets: dict = field(default_factory=dict)
    start: int = None
    records: list = field(default_factory=list)
    sent: list = field(default_factory=list)
    places: dict = field(default_factory=dict)
    left_out: dict = field(default_factory=dict)
    unread: list = field(default_factory=list)
    short: int = 0
    cooked: int = 0
    trailers: collections.Counter = field(default_factory=collections.Counter)
    sections: set = field(default_factory=set)
    names: list = field(default_factory=list)
    known: Known = field(default_factory=Known)
    cut: int = None
    met: set = None
    not_followed: int = None

    @functools.cached_property
    def is_timed(self):
        """Whether each record that was read has a time, once all were read."""
        return all(time is not None for _, time in self.records)


@dataclass
class Answer:
    """The status of a run, and what it writes: standard output, then the lines of its standard
    error."""

    status: int
    output: bytes = b""
    errors: tuple = ()


def big(octets, at, count):
    return int.from_bytes(octets[at : at + count], "big")


# ---- blocks


def byte_order(octets, at, numbers):
    """The byte order in which one of these numbers stands here."""
    for order in "big", "little":
        if int.from_bytes(octets[at : at + 4], order) in numbers:
            return order
    return None


def block_of(octets, at, len_of, header, limit):
    """The octets of the block that begins here, or none of them where it is cut."""
    if len(octets) - at < header:
        return b""
    length = len_of(octets[at : at + header])
    if at + length > limit:
        raise Fault(f"capture too long at {at}")
    return octets[at : at + length] if at + length <= len(octets) else b""


def refuse_version(block, begin, place, order, read):
    """Two numbers of two octets here are one of these versions."""
    version = tuple(int.from_bytes(block[at : at + 2], order) for at in (place, place + 2))
    if version not in read:
        raise Fault(f"version {version[0]}.{version[1]} not read at {begin}")


def options_in(options, order, at):
    """draft-ietf-opsawg-pcapng, 3.5, 4.2: the name, resolution and offset among the options of an
    interface; of each the first if there are several, of names the first that is not empty."""
    found, place = {}, 0
    while place + 4 <= len(options):
        code, length = (
            int.from_bytes(options[here : here + 2], order) for here in (place, place + 2)
        )
        if code == 0:
            break
        if place + 4 + length > len(options) or LENGTHS.get(code, length) != length:
            raise Fault(f"bad length at {at}")
        if not found.get(code):
            found[code] = options[place + 4 : place + 4 + length]
        place += 4 + (length + 3) // 4 * 4
    power = found.get(RESOLUTION, b"\6")[0]
    unit = fractions.Fraction(SECOND, 2 ** (power - 128) if power >= 128 else 10**power)
    seconds = int.from_bytes(found.get(OFFSET, bytes(8)), order, signed=True)
    return found.get(NAME, b""), lambda units: math.floor(seconds * SECOND + units * unit)


def pcap_packets(octets, order, limit, _names):
    """The packets of a pcap file, and then where it is cut, if it is: draft-ietf-opsawg-pcap, 4 and
    5."""
    number = lambda block, at: int.from_bytes(block[at : at + 4], order)
    if limit < 24:
        raise Fault("capture too long at 0")
    link, at = number(octets, 20) % 65_536, 24
    unit = 1 if number(octets, 0) == 0xA1B23C4D else 1_000
    refuse_version(octets, 0, 4, order, [(2, 4)])

    def length(header):
        if header[8:16] == bytes(8):
            raise Blank(at)
        if number(header, 8) > LONGEST_PACKET:
            raise Fault(f"bad length at {at}")
        return 16 + number(header, 8)

    while at < len(octets):
        record = block_of(octets, at, length, 16, limit)
        if not record:
            yield at
            return
        time = number(record, 0) * SECOND + number(record, 4) * unit
        yield Packet(at, 0, link, record[16:], number(record, 12), time)
        at += len(record)


def pcapng_packets(octets, limit, names):
    """The packets of a pcapng file, and then where it is cut, if it is."""
    order, interfaces, first, section, at = None, [], 0, -1, 0
    number = lambda block, at, count=4: int.from_bytes(block[at : at + count], order)

    def length(header):
        nonlocal order
        least, read = 12, order
        if header.startswith(b"\n\r\r\n"):
            least, read = 28, byte_order(header, 8, [0x1A2B3C4D])
            if read is None:
                raise Fault(f"bad byte order at {at}")
        total = int.from_bytes(header[4:8], read)
        if total < least or total > LONGEST_BLOCK or total % 4:
            raise Fault(f"bad length at {at}")
        return total

    def packet(interface, frame, whole, units=None):
        if interface >= len(interfaces):
            raise Fault(f"no such interface at {at}")
        link, _, time_of = interfaces[interface]
        time = None if units is None else time_of(units)
        return Packet(at, interface, link, frame, whole, time, section)

    while at < len(octets):
        block = block_of(octets, at, length, 24 if order is None else 12, limit)
        if not block:
            yield at
            return
        is_section = block.startswith(b"\n\r\r\n")
        if is_section:
            order = byte_order(block, 8, [0x1A2B3C4D])
            first, section = len(interfaces), section + 1
        if number(block, len(block) - 4) != len(block):
            raise Fault(f"bad length at {at}")
        if is_section:
            refuse_version(block, at, 12, order, [(1, 0), (1, 2)])
        kind = None if is_section else number(block, 0)
        if kind in LEAST and len(block) < LEAST[kind]:
            raise Fault(f"bad length at {at}")
        if kind == 1:
            if len(interfaces) == MOST_INTERFACES:
                raise Fault(f"too many interfaces at {at}")
            name, time_of = options_in(block[16:-4], order, at)
            interfaces.append((number(block, 8, 2), number(block, 12), time_of))
            names.append(name)
        elif kind == 3:
            if first >= len(interfaces):
                raise Fault(f"no such interface at {at}")
            whole, snap = number(block, 8), interfaces[first][1]
            kept = min(whole, snap) if snap else whole
            if 16 + kept > len(block):
                raise Fault(f"bad length at {at}")
            yield packet(first, block[12 : 12 + kept], whole)
        elif kind in (2, 6):
            kept = number(block, 20)
            if 32 + kept > len(block):
                raise Fault(f"bad length at {at}")
            yield packet(
                first + number(block, 8, 2 if kind == 2 else 4),
                block[28 : 28 + kept],
                number(block, 24),
                number(block, 12) << 32 | number(block, 16),
            )
        at += len(block)


# How long the blocks are at least that are read: descriptions of interfaces, packets, simple and
# enhanced packets.
LEAST = {1: 20, 2: 32, 3: 16, 6: 32}


def packets(octets, limit, names):
    """The packets of a capture, and then where it is cut, if it is."""
    if len(octets) < 24:
        raise Fault("not a capture")
    order = byte_order(octets, 0, [0xA1B2C3D4, 0xA1B23C4D])
    if order is None and not octets.startswith(b"\n\r\r\n"):
        raise Fault("not a capture")
    for each in pcap_packets(octets, order, limit, names) if order else pcapng_packets(
        octets, limit, names
    ):
        if each == 0:
            # Not even the first block is whole.
            raise Fault("not a capture")
        yield each


# ---- frames

TAGS = 0x8100, 0x88A8, 0x9100, 0x9200
IPV4, IPV6 = 0x0800, 0x86DD


def seen_in(link, frame, whole):
    """The datagram from or to Babel's port in a frame of this link type that had so many octets; or
    that it has none, or is too short to tell. The type is one that is read."""
    whole = max(whole, len(frame))
    if link == 1:
        return after_type(frame, 12, 14, whole)
    if link == 113:
        return after_type(frame, 14, 16, whole)
    if link == 276:
        if len(frame) >= 2 and big(frame, 0, 2) not in (IPV4, IPV6, *TAGS):
            return OTHER
        seen = after_type(frame, 0, 20, whole)
        if isinstance(seen, (Seen, Fragment)):
            seen.link = big(frame, 4, 4)
        return seen
    if link in (0, 108):
        if len(frame) < 4:
            return SHORT
        family = min(int.from_bytes(frame[:4], order) for order in ("big", "little"))
        if family not in (2, 10, 24, 28, 30):
            return OTHER
        return (in_ipv4 if family == 2 else in_ipv6)(frame[4:], whole - 4)
    if link in (228, 229):
        return {228: in_ipv4, 229: in_ipv6}[link](frame, whole)
    if not frame:
        return SHORT
    return {4: in_ipv4, 6: in_ipv6}.get(frame[0] >> 4, lambda *_: OTHER)(frame, whole)


def after_type(frame, place, header, whole):
    """After a header with an EtherType at this place, and up to four VLAN tags."""
    if len(frame) < header:
        return SHORT
    kind, frame, whole, vlans = big(frame, place, 2), frame[header:], whole - header, ()
    for _ in range(4):
        if kind in TAGS and len(frame) >= 4:
            vlan = big(frame, 0, 2) % 0x1000
            vlans += (vlan,) if vlan else ()
            kind, frame, whole = big(frame, 2, 2), frame[4:], whole - 4
    if kind in TAGS and len(frame) < 4:
        return SHORT
    seen = {IPV4: in_ipv4, IPV6: in_ipv6}.get(kind, lambda *_: OTHER)(frame, whole)
    if isinstance(seen, (Seen, Fragment)):
        seen.vlans = vlans
    return seen


def in_ipv4(packet, whole):
    """RFC 791, 3.1: its fields, in their order, as far as they were kept."""
    if len(packet) < 1:
        return SHORT
    header = 4 * (packet[0] % 16)
    if packet[0] >> 4 != 4 or header < 20:
        return OTHER
    if len(packet) < 10:
        return SHORT
    if packet[9] != UDP:
        return OTHER
    if len(packet) < 20:
        return SHORT
    total, flags = big(packet, 2, 2), big(packet, 6, 2)
    ends = [ipaddress.IPv4Address(packet[at : at + 4]) for at in (12, 16)]
    carried, length = packet[:total][header:], max(total - header, 0)
    offset, more = flags % 0x2000 * 8, bool(flags & 0x2000)
    if offset or more:
        piece = Fragment(*ends, big(packet, 4, 2), offset, more, length, carried)
        return in_fragment(piece, total > whole, UDP)
    return in_udp(*ends, total > whole, carried, length)


# How many octets tell what comes after an extension header.
TELLING = {0: 2, 43: 2, 60: 2, 44: 4}


def past_headers(number, carried, length, in_fragment=False):
    """RFC 8200, 4: the header after at most eight extension headers, its octets, and how many there
    were. A fragment header is skipped where the fragment is all of the packet (RFC 6946), and no
    other came before it. Whether one came."""
    for _ in range(8):
        if len(carried) < TELLING.get(number, math.inf):
            break
        if number == 44 and (in_fragment or big(carried, 2, 2) & 0xFFF9):
            break
        in_fragment = in_fragment or number == 44
        header = 8 if number == 44 else 8 + 8 * carried[1]
        number, carried, length = carried[0], carried[header:], max(length - header, 0)
    return number, carried, length, in_fragment


def is_unkept(number, carried, length):
    """The recorder did not keep what tells what comes after this header."""
    return len(carried) < TELLING.get(number, 0) <= length


def in_ipv6(packet, whole):
    """RFC 8200, 3 and 4."""
    if len(packet) < 1:
        return SHORT
    if packet[0] >> 4 != 6:
        return OTHER
    if len(packet) < 7:
        return SHORT
    said = big(packet, 4, 2)
    number, carried, length, again = past_headers(packet[6], packet[40 : 40 + said], said)
    ends = [ipaddress.IPv6Address(packet[at : at + 16].ljust(16, b"\0")) for at in (8, 24)]
    if number == 44 and not again:
        if length < 8:
            return OTHER
        if len(packet) < 40 or len(carried) < 8:
            return SHORT
        flags = big(carried, 2, 2)
        offset, more = flags & 0xFFF8, bool(flags & 1)
        piece = Fragment(*ends, big(carried, 4, 4), offset, more, length - 8, carried[8:])
        return in_fragment(piece, 40 + said > whole, carried[0])
    if number != UDP:
        return SHORT if is_unkept(number, carried, length) else OTHER
    if len(packet) < 40:
        return OTHER if length < 4 else SHORT
    return in_udp(*ends, 40 + said > whole, carried, length)


def in_fragment(piece, is_cut, number):
    """RFC 791, 3.2; RFC 8200, 4.5: a fragment that carries what has this number; of the first one
    also where UDP begins (RFC 7112, 5)."""
    if is_cut or piece.end > 0xFFFF:
        return OTHER
    if piece.length % 8 or not piece.length if piece.more else not piece.offset:
        return OTHER
    piece.is_to_group = number == UDP and piece.destination == GROUP[piece.destination.version]
    if piece.offset:
        return piece
    upper, carried, length, _ = past_headers(number, piece.octets, piece.length, True)
    if upper == UDP and length >= 8:
        if len(carried) < 4:
            return SHORT
        ports = big(carried, 0, 2), big(carried, 2, 2)
        if BABEL in ports:
            piece.udp = piece.length - length, ports == (BABEL, BABEL)
    elif is_unkept(upper, carried, length):
        return SHORT
    elif upper == 44:
        return OTHER
    return piece


# The groups that routers send to: RFC 8966, 4.
GROUP = {4: ipaddress.ip_address("224.0.0.111"), 6: ipaddress.ip_address("ff02::1:6")}


def missing(datagram):
    """What a datagram is of which fragments are missing."""
    first, udp = datagram.first, datagram.udp or (0, datagram.first.is_to_group)
    if not datagram.udp and not first.is_to_group:
        return OTHER
    reason = "fragment"
    if not udp[1]:
        reason = "other-port"
    elif first.sender.version == 6 and not first.sender.is_link_local:
        reason = "not-link-local"
    return Seen(first.sender, reason, link=first.link, vlans=first.vlans)


def put_together(datagram):
    """What a datagram is that is whole."""
    first = datagram.first
    if not datagram.udp:
        return OTHER
    at = datagram.udp[0]
    seen = in_udp(first.sender, first.destination, False, datagram.joined()[at:], datagram.end - at)
    if isinstance(seen, Seen):
        seen.link, seen.vlans = first.link, first.vlans
    return seen


def in_udp(sender, destination, is_cut, carried, whole):
    """RFC 768; RFC 8966, 4: a datagram of which IP carries so many octets, of which these were
    kept."""
    if whole < 4:
        return OTHER
    if len(carried) < 4:
        return SHORT
    ports = big(carried, 0, 2), big(carried, 2, 2)
    if BABEL not in ports:
        return OTHER
    if ports != (BABEL, BABEL):
        return Seen(sender, "other-port")
    if sender.version == 6 and not sender.is_link_local:
        return Seen(sender, "not-link-local")
    if is_cut:
        return Seen(sender, "cut-short")
    if whole < 6:
        return OTHER
    if len(carried) < 6:
        return Seen(sender, "snapped")
    length = big(carried, 4, 2)
    if length > whole:
        return Seen(sender, "cut-short")
    if length < 8:
        return OTHER
    if len(carried) < length:
        return Seen(sender, "snapped")
    return Seen(sender, "whole", carried[8:length], destination)


LINKS = {0, 1, 12, 14, 101, 108, 113, 228, 229, 276}


# ---- times


def told(time):
    """A time that can be told: of the years 1970 to 9999."""
    return time if time is not None and 0 <= time < YEAR_10000 * SECOND else None


def time_text(time):
    """ISO 8601, with nine digits after the point."""
    seconds, nanoseconds = divmod(time, SECOND)
    moment = datetime.datetime(1970, 1, 1) + datetime.timedelta(seconds=seconds)
    return f"{moment:%Y-%m-%dT%H:%M:%S}.{nanoseconds:09}Z"


FRACTION = r"(?:\.([0-9]{1,9}))?"
DATE = (
    r"([0-9]{4})-([0-9]{2})-([0-9]{2})T([0-9]{2}):([0-9]{2})(?::([0-9]{2})"
    + FRACTION
    + r")?(?:Z|([+-])([0-9]{2}):([0-9]{2}))"
)


def nanoseconds(seconds, fraction):
    return int(seconds) * SECOND + int((fraction or "").ljust(9, "0"))


@dataclass
class Moment:
    """A moment in nanoseconds: since 1970, or from the capture's first record."""

    nanoseconds: int
    from_start: bool = False

    def is_one(self):
        """It is later than the start, or can be told."""
        return self.from_start or told(self.nanoseconds) is not None

    def at(self, start):
        return self.nanoseconds + (start if self.from_start else 0)


def moment_of(word):
    """The moment that a word says, if it says one."""
    if found := re.fullmatch(r"([@+])([0-9]+)" + FRACTION, word):
        sign, seconds, fraction = found.groups()
        moment = Moment(nanoseconds(seconds, fraction), sign == "+")
        return moment if moment.is_one() and int(seconds) < 2**64 else None
    if found := re.fullmatch(DATE, word):
        *fields, second, fraction, sign, hours, minutes = found.groups()
        try:
            date = datetime.datetime(*map(int, fields), int(second or 0))
        except ValueError:
            return None
        if int(hours or 0) > 23 or int(minutes or 0) > 59:
            return None
        offset = int(f"{sign or '+'}1") * (int(hours or 0) * 60 + int(minutes or 0)) * 60
        since = date - datetime.datetime(1970, 1, 1)
        moment = Moment(nanoseconds(since.days * 86_400 + since.seconds - offset, fraction))
        return moment if moment.is_one() else None
    return None


@dataclass
class Window:
    """The records of some time: those that are not before the one moment, nor after the other."""

    since: Moment = None
    until: Moment = None

    def is_backwards(self, start=None):
        """It ends before it begins: whatever the capture, or if its first record came then."""
        since, until = self.since, self.until
        if None in (since, until):
            return False
        if start is None and since.from_start != until.from_start:
            return False
        return since.at(start or 0) > until.at(start or 0)

    def refuse_backwards(self, start=None):
        if self.is_backwards(start):
            raise NoTime(BACKWARDS)

    def has(self, start, time):
        return (self.since is None or self.since.at(start) <= time) and (
            self.until is None or time <= self.until.at(start)
        )


def window_of(since, until):
    """What is read by these words, where one is given."""
    if since is None and until is None:
        return None
    moments = [word if word is None else moment_of(word) for word in (since, until)]
    for word, moment in zip((since, until), moments):
        if word is not None and moment is None:
            raise NoTime(f"not a time: {word}")
    window = Window(*moments)
    window.refuse_backwards()
    return window


def span_of(found):
    """From the earliest to the latest time of the records that were read, where each has one."""
    times = [time for _, time in found.records]
    return None if None in times or not times else max(times) - min(times)


def in_seconds(centiseconds):
    """So many hundredths of a second, in seconds with two places."""
    return decimal.Decimal(centiseconds).scaleb(-2)


def hundredths(centiseconds):
    """So many hundredths of a second, in seconds without zeros at the end."""
    whole, part = divmod(centiseconds, 100)
    return f"{whole}.{part:02}".rstrip("0").rstrip(".")


def time_notes(found, intervals):
    """The notes on times: that they run backwards, and that what was read spans less than the
    greatest of these Intervals."""
    records = [record for record in found.records if record[1] is not None]
    for (_, before), (number, time) in zip(records, records[1:]):
        if time < before:
            text = f"times run backwards at packet {number}"
            yield text, {"note": "backwards", "packet": number}
            break
    interval = max((each for each in intervals if each is not None), default=None)
    span = span_of(found)
    if None not in (interval, span) and span < interval * CENTISECOND:
        spans = span // CENTISECOND
        yield (
            f"the capture spans {hundredths(spans)} s, the Interval is {hundredths(interval)} s: "
            "routes may be missing",
            {"note": "short-span", "span": in_seconds(spans), "interval": in_seconds(interval)},
        )


# ---- Babel packets


def packet_in(payload):
    """The Babel packet that a payload begins with, or why there is none: RFC 8966, 4.2."""
    if len(payload) < 4:
        return None, "truncated"
    if payload[0] != 42:
        return None, "bad-magic"
    if payload[1] != 2:
        return None, "bad-version"
    end = 4 + big(payload, 2, 2)
    return (payload[:end], None) if end <= len(payload) else (None, "truncated")


def updates_in(packet):
    """The bodies of the Updates that a packet has: RFC 8966, 4.3, 4.6.9; none if a TLV runs past
    its end."""
    bodies, at = [], 4
    while at < len(packet):
        if packet[at] == 0:
            at += 1
            continue
        if at + 2 > len(packet) or at + 2 + packet[at + 1] > len(packet):
            return []
        if packet[at] == UPDATE:
            bodies.append(packet[at + 2 : at + 2 + packet[at + 1]])
        at += 2 + packet[at + 1]
    return bodies


def interval_of(packets):
    """The greatest Interval of the Updates that announce, in hundredths of a second."""
    updates = [body for packet in packets for body in updates_in(packet) if len(body) >= 10]
    return max((big(body, 4, 2) for body in updates if big(body, 8, 2) != INFINITY), default=None)


def until_blank(found, fits, accept_cut):
    """The packets, and where a record without octets makes an end of them, if it may."""
    try:
        yield from found
    except Blank as end:
        if not accept_cut:
            raise
        if not fits:
            raise Fault(f"capture too long at {end.at}") from end
        yield end.at


def find(octets, limit, wanted, accept_cut, window=None, found=None):
    """What a capture gives of the senders that are wanted, in what is found so far: all, or the
    records between two moments, where times are asked for."""
    found, number = Found() if found is None else found, 0
    for packet in until_blank(packets(octets, limit, found.names), len(octets) <= limit, accept_cut):
        if isinstance(packet, int):
            found.cut = packet
            break
        number += 1
        if packet.link not in LINKS:
            raise Fault(f"link type {packet.link} not read at {packet.at}")
        time = told(packet.time)
        if window and time is None:
            what = "packet without a time" if packet.time is None else "bad time"
            raise Fault(f"{what} at {packet.at}")
        found.start = time if found.start is None else found.start
        if window:
            window.refuse_backwards(found.start)
        for datagram in found.known.give_up(time):
            miss(found, datagram, wanted)
        seen = seen_in(packet.link, packet.frame, packet.whole)
        is_read = window is None or window.has(found.start, time)
        if isinstance(seen, Fragment):
            counts = window is None or window.has(found.start, time + LIFETIME)
            seen = put(found, packet, seen, number, counts, wanted if is_read else None)
        if is_read:
            take(found, packet, seen, number, wanted)
            found.records.append((number, time))
    for datagram in found.known.give_up_all():
        miss(found, datagram, wanted)
    if found.cut is not None and not accept_cut:
        raise Fault(f"capture cut short at {found.cut}")
    return found


def put(found, packet, fragment, number, counts, wanted):
    """What is seen at a packet that is a fragment, and has such a number in its capture: the
    datagram that it completes. One of a packet that is skipped is put to the others, too."""
    place = packet.interface, fragment.link, fragment.vlans
    step, datagram = found.known.take(place, fragment, number, packet.at, counts)
    if step == "overlaps" and wanted:
        miss(found, datagram, wanted)
    return put_together(datagram) if step == "completes" else OTHER


def take(found, packet, seen, number, wanted):
    """What is found with this packet, which is seen so, and has such a number in its capture."""
    found.short += seen == SHORT
    if not isinstance(seen, Seen):
        return
    if seen.what == "whole":
        found.sections.add(packet.section)
    place = packet.interface, seen.link, seen.vlans
    if not wanted(seen.sender, place):
        return
    origin, reason = (place, seen.sender.version, int(seen.sender)), seen.what
    if reason == "whole":
        babel, reason = packet_in(seen.payload)
    if found.met is not None and (not reason or reason in LACKS):
        most = MOST_ANNOUNCING if not reason and updates_in(babel) else MOST_SENDERS
        if origin not in found.met and len(found.met) >= most:
            found.not_followed = found.not_followed or number
            return
        found.met.add(origin)
    if reason:
        leave_out(found, origin, number, reason, packet.at, wanted)
        return
    if origin not in found.packets and len(found.packets) == MOST_SENDERS:
        raise Fault(f"too many senders at {packet.at}")
    found.packets.setdefault(origin, []).append(babel)
    found.places.setdefault(origin, []).append(len(found.records))
    found.sent.append((origin, babel, len(found.records), seen.destination))
    found.cooked += packet.link == 113
    found.trailers[origin] += len(babel) < len(seen.payload)


def miss(found, datagram, wanted):
    """A datagram of which fragments are missing."""
    seen = missing(datagram)
    if isinstance(seen, Seen) and wanted(seen.sender, datagram.place):
        origin = datagram.place, seen.sender.version, int(seen.sender)
        leave_out(found, origin, datagram.number, seen.what, datagram.at, wanted)


def leave_out(found, origin, number, reason, at, wanted):
    """A datagram is left out, of which the first block is at this offset."""
    is_accepted = wanted.accepts_missing and reason == "fragment"
    if reason in LACKS and wanted.names and not is_accepted:
        raise Fault(f"{LACKS[reason]} at {at}")
    found.left_out.setdefault(reason, []).append(number)
    found.unread.append((origin, number, reason, len(found.records)))


@dataclass
class Wanted:
    """Which datagrams are looked at: of one sender, or of all; at one place, or at all. Whether one
    that lacks fragments refuses nobody."""

    sender: object = None
    interface: str = None
    accepts_missing: bool = False

    @property
    def names(self):
        return self.sender is not None

    def __call__(self, sender, place):
        return self.sender in (None, sender) and self.interface in (None, place_asked(place))


def by_place(origin):
    """The order of senders: by description, link (none first), VLANs and address."""
    (interface, link, vlans), version, bits = origin
    return interface, (link is not None, link or 0), vlans, version, bits


# ---- what is written


def text_of(version, bits):
    """The text of an address: IPv6 as eight groups."""
    if version == 4:
        return str(ipaddress.IPv4Address(bits))
    return ":".join(
        f"{int(group, 16):x}" for group in ipaddress.IPv6Address(bits).exploded.split(":")
    )


def name_text(name):
    """The text of an interface's name: letters, digits and three marks stand for themselves."""
    plain = b"abcdefghijklmnopqrstuvwxyzABCDEFGHIJKLMNOPQRSTUVWXYZ0123456789.-_"
    return "".join(chr(octet) if octet in plain else f"\\x{octet:02x}" for octet in name)


def place_asked(place):
    """A place as `--interface` asks for it."""
    interface, link, vlans = place
    return str(interface) + ("" if link is None else f"/{link}") + (
        ":" + ".".join(map(str, vlans)) if vlans else ""
    )


def place_text(place, name):
    interface, link, vlans = place
    words = [f"interface {interface}"]
    words += [f"({name_text(name)})"] if name else []
    words += [] if link is None else [f"link {link}"]
    words += ["vlan " + ".".join(map(str, vlans))] if vlans else []
    return " ".join(words)


def sender_line(origin, found, as_json):
    place, version, bits = origin
    interface, link, vlans = place
    name = name_at(place, found.names)
    sent = found.packets[origin]
    address, octets = text_of(version, bits), sum(map(len, sent))
    updates, interval = sum(len(updates_in(packet)) for packet in sent), interval_of(sent)
    first, last = ends_of(origin, found)
    if as_json:
        says = {
            "sender": address,
            "interface": interface,
            "link": link,
            "vlans": list(vlans),
            "name": name_text(name) or None,
        }
        says.update(packets=len(sent), octets=octets, updates=updates)
        says.update(interval=None if interval is None else in_seconds(interval))
        says.update(first=first, last=last, trailers=found.trailers[origin])
        return json_line(says)
    counts = f"packets {len(sent)} octets {octets} updates {updates}"
    interval = "-" if interval is None else in_seconds(interval)
    times = f"interval {interval} first {first or '-'} last {last or '-'}"
    trailers = f"trailers {found.trailers[origin]}"
    return f"{address} {place_text(place, name)} {counts} {times} {trailers}\n"


def name_at(place, names):
    return names[place[0]] if place[0] < len(names) else b""


def ends_of(origin, found):
    """The texts of a sender's first and last time, or none if not each record that was read has a
    time."""
    if not found.is_timed:
        return None, None
    times = [found.records[place][1] for place in found.places[origin]]
    return time_text(min(times)), time_text(max(times))


COOKED = (
    "frames of Linux cooked, version 1, name no interface, so links can't be told apart; record "
    "with -y LINUX_SLL2, or, where a link has VLAN tags, on its interface"
)


def short_note(found):
    """Of `senders` alone: how many frames were too short to tell."""
    if found.short:
        frames = "1 frame" if found.short == 1 else f"{found.short} frames"
        yield f"{frames} too short to tell", {"note": "too-short", "frames": found.short}


def notes_of(found):
    """The notes on a capture, as text and as an object: what was left out, and where it is cut."""
    reasons = [
        {"reason": reason, "count": len(numbers), "first": min(numbers)}
        for reason in REASONS
        if (numbers := found.left_out.get(reason))
    ]
    if reasons:
        total = sum(map(len, found.left_out.values()))
        datagrams = "datagram" if total == 1 else "datagrams"
        counts = ", ".join("{reason} {count} first {first}".format(**each) for each in reasons)
        yield f"{total} {datagrams} left out: {counts}", {"note": "left-out", "reasons": reasons}
    if found.cooked:
        yield COOKED, {"note": "cooked-1"}
    if len(found.sections) > 1:
        yield (
            f"{len(found.sections)} sections; the interfaces of each are others: mergecap makes "
            "them one",
            {"note": "sections", "sections": len(found.sections)},
        )
    if trailers := found.trailers.total():
        packets = (
            "1 packet has octets after its body"
            if trailers == 1
            else f"{trailers} packets have octets after their bodies"
        )
        text = f"{packets}; authentication (RFC 8967) is not checked"
        yield text, {"note": "trailers", "packets": trailers}
    if found.cut is not None:
        text = f"capture cut short at {found.cut}, and read up to there"
        yield text, {"note": "capture-cut", "at": found.cut}


def texts_of(notes):
    return tuple(f"note: {text}" for text, _ in notes)


def json_line(says):
    members = (f'"{name}":{json_value(value)}' for name, value in says.items())
    return "{" + ",".join(members) + "}\n"


def json_value(value):
    if isinstance(value, decimal.Decimal):
        return str(value)
    return json.dumps(value, separators=(",", ":"))


def refuse_if_strict(found, strict):
    firsts = [(min(numbers), reason) for reason, numbers in found.left_out.items()]
    if strict and firsts:
        number, reason = min(firsts)
        raise Fault(f"datagram left out at packet {number}: {reason}")


def senders(
    octets,
    as_json=False,
    strict=False,
    accept_cut=False,
    limit=USUAL_OCTETS,
    since=None,
    until=None,
):
    """What `senders` answers for a capture."""
    try:
        window = window_of(since, until)
        found = find(octets, limit, Wanted(), accept_cut, window)
        refuse_if_strict(found, strict)
    except (Fault, NoTime) as fault:
        return Answer(2 if isinstance(fault, NoTime) else 3, errors=(str(fault),))
    origins = sorted(found.packets, key=by_place)
    lines = [sender_line(origin, found, as_json) for origin in origins]
    status, none = (0, ()) if lines else (1, ("no Babel packets",))
    intervals = [interval_of(found.packets[origin]) for origin in origins]
    notes = [*notes_of(found), *time_notes(found, intervals), *short_note(found)]
    lines += [json_line(says) for _, says in notes if as_json]
    return Answer(status, "".join(lines).encode(), none + texts_of(notes))


def only_place(found):
    """The one place of the sender that was asked for is all that there is of it."""
    if len(found.packets) > 1:
        places = [place_asked(place) for place, *_ in sorted(found.packets, key=by_place)]
        more = len(places) - LISTED_PLACES
        listed = ", ".join(places[:LISTED_PLACES]) + (f", and {more} more" if more > 0 else "")
        raise Fault(f"packets from this sender on several interfaces: {listed}")


def without_absence(line):
    """The line; of a sender that has no packets, without where and when."""
    return re.sub(r"(no packets from [0-9a-f:.]+).*", r"\1", line)


def extract(
    octets,
    sender,
    interface=None,
    as_hex=False,
    strict=False,
    accept_cut=False,
    accept_missing=False,
    limit=USUAL_OCTETS,
    since=None,
    until=None,
):
    """What `extract` answers for a capture."""
    sender = ipaddress.ip_address(sender)
    try:
        window = window_of(since, until)
        wanted = Wanted(sender, interface, accept_missing)
        found = find(octets, limit, wanted, accept_cut, window)
        refuse_if_strict(found, strict)
        only_place(found)
    except (Fault, NoTime) as fault:
        return Answer(2 if isinstance(fault, NoTime) else 3, errors=(str(fault),))
    sent = sum(found.packets.values(), [])
    notes = texts_of([*notes_of(found), *time_notes(found, [interval_of(sent)])])
    if not sent:
        return Answer(1, errors=(f"no packets from {text_of(sender.version, int(sender))}", *notes))
    dump = b"".join(sent)
    output = (dump.hex() + "\n").encode() if as_hex else dump
    return Answer(0, output, notes)
