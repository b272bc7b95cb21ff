"""Datagrams put together of their fragments: RFC 791, 3.2; RFC 8200, 4.5; RFC 5722, 4.

It keeps all pieces of a datagram by their offsets, and looks at all of them for each piece more.
"""

from dataclasses import dataclass, field

MOST_DATAGRAMS = 65_536
MOST_OCTETS = 16 * 1024 * 1024
LIFETIME = 60 * 1_000_000_000


@dataclass
class Fragment:
    """A fragment: between which addresses it is sent, its identification, where in the datagram it
    begins, whether more come after it, how many octets of the datagram it had, and those that were
    kept. Of a first one of a datagram of Babel where UDP begins, and whether both ports are
    Babel's. Whether it goes to a group of Babel, as UDP; and its link and VLANs."""

    sender: object
    destination: object
    identification: int
    offset: int
    more: bool
    length: int
    octets: bytes
    udp: tuple = None
    is_to_group: bool = False
    link: int = None
    vlans: tuple = ()

    @property
    def end(self):
        return self.offset + self.length

    @property
    def is_of_another(self):
        """It is the first one of a datagram that is not Babel's."""
        return self.offset == 0 and self.udp is None

    def repeats(self, other):
        return (self.offset, self.more, self.length, self.octets) == (
            other.offset,
            other.more,
            other.length,
            other.octets,
        )


@dataclass
class Datagram:
    """What came of a datagram: the place and number of its first fragment to come, the offset of
    its block, the latest time by then, whether it counts where fragments of it are missing, and its
    pieces."""

    place: tuple
    number: int
    at: int
    came: int
    counts: bool
    first: Fragment
    udp: tuple = None
    standing: str = "open"
    pieces: list = field(default_factory=list)

    @property
    def end(self):
        return max(piece.end for piece in self.pieces)

    def is_missed(self):
        return self.standing == "open" and self.counts

    def is_whole(self):
        has_last = any(not piece.more for piece in self.pieces)
        return has_last and sum(piece.length for piece in self.pieces) == self.end

    def overlaps(self, fragment):
        """RFC 5722, 4: it shares octets with another, or is at odds with which is the last one."""
        if any(fragment.offset < one.end and one.offset < fragment.end for one in self.pieces):
            return True
        if any(not piece.more for piece in self.pieces):
            return not fragment.more or fragment.end > self.end
        return not fragment.more and fragment.end < self.end

    def add(self, fragment):
        self.pieces.append(fragment)
        self.udp = fragment.udp or self.udp
        if self.is_whole():
            self.standing = "whole"

    def step(self, fragment):
        """What one more is to it, and the datagram after it."""
        if self.standing == "other":
            return "anew" if fragment.udp else "ignored"
        if self.standing == "dropped" or any(map(fragment.repeats, self.pieces)):
            return "ignored"
        if self.standing == "whole" or fragment.is_of_another:
            return "anew"
        if self.overlaps(fragment) or any(one.offset == fragment.offset for one in self.pieces):
            self.standing = "dropped"
            return "overlaps"
        self.add(fragment)
        return "completes" if self.standing == "whole" else "added"

    def joined(self):
        """Its octets, up to the first that were not kept."""
        octets = b""
        for piece in sorted(self.pieces, key=lambda piece: piece.offset):
            octets += piece.octets
            if len(piece.octets) < piece.length:
                break
        return octets


class Known:
    """The datagrams that came in fragments, the oldest first."""

    def __init__(self):
        self.clock = 0
        self.datagrams = {}

    def is_past(self, alike):
        """Of the unfinished ones, or of the others, the oldest goes."""
        octets = sum(piece.length for _, one in alike for piece in one.pieces)
        return (
            self.clock - alike[0][1].came > LIFETIME
            or len(alike) > MOST_DATAGRAMS
            or octets > MOST_OCTETS
        )

    def alike(self, is_open):
        return [one for one in self.datagrams.items() if (one[1].standing == "open") == is_open]

    def give_up(self, time):
        """Those of which fragments are missing that are given up when a packet came then, and
        count."""
        self.clock = max(self.clock, time or 0)
        for is_open in True, False:
            alike = self.alike(is_open)
            while alike and self.is_past(alike):
                key, oldest = alike.pop(0)
                del self.datagrams[key]
                if oldest.is_missed():
                    yield oldest

    def give_up_all(self):
        """Those of which fragments are missing where no more packets come, and that count."""
        while self.datagrams:
            oldest = self.datagrams.pop(next(iter(self.datagrams)))
            if oldest.is_missed():
                yield oldest

    def take(self, place, fragment, number, at, counts):
        """What the fragment of a packet with this number is to its datagram, and that; one that it
        begins counts where fragments of it are missing, or does not."""
        key = place, fragment.sender, fragment.destination, fragment.identification
        datagram = self.datagrams.get(key)
        step = datagram.step(fragment) if datagram else "anew"
        if step != "anew":
            return step, datagram
        self.datagrams.pop(key, None)
        one = self.datagrams[key] = Datagram(place, number, at, self.clock, counts, fragment)
        if fragment.is_of_another:
            one.standing = "other"
        else:
            one.udp = fragment.udp
            one.pieces.append(fragment)
        return step, None
