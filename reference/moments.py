#!/usr/bin/env python3
"""What a sender held at a moment, and what changed when: a slow program, from what times and
expiry mean, for nothing but to be read.

    moments.py show --from A [OPTIONS] CAPTURE
    moments.py lookup --from A --to D --src S [OPTIONS] CAPTURE
    moments.py events [--from A] [--to D [--src S]] [OPTIONS] CAPTURE

The options are `--interface`, `--since`, `--until`, `--expiry`, `--v4-via-v6`, `--accept-cut` and
`--quiet`; of `show` and `lookup` also `--hold`, of `events` also `--ignore`, `--json` and
`--max-routes`. It writes what babel-dump writes, but for hints, of `show` and `lookup` the
rows and the notes on times alone. With `--follows-all` events go on where a datagram of the sender
is missed, and faults don't say whose they are.

A table is made of all that was said: of each key the last word decides, and its time and Interval
whether it has expired. Events are made by a walk over all rows for each record.
"""

import argparse
import ipaddress
import pathlib
import re
import sys
from dataclasses import dataclass, replace

sys.path.append(str(pathlib.Path(__file__).resolve().parent.parent / "tests"))
import capture_reader as reader  # noqa: E402
from capture_reader import Answer, Fault, big  # noqa: E402

WIDTH = {4: 32, 6: 128}
FAMILY = {1: 4, 2: 6, 4: 4}
INFINITY = 0xFFFF
RESERVED = bytes(8), b"\xff" * 8
HELLO, ROUTER_ID, NEXT_HOP, UPDATE = 4, 6, 7, 8
UNICAST = 0x80
SOURCE_PREFIX, MANDATORY = 128, 128
LINK_LOCAL = bytes.fromhex("fe80000000000000")
FIELDS = "next-hop", "router-id", "seqno", "metric"
# A hundredth of a second is 10,000,000 nanoseconds, and a factor has seven digits after the point.
FACTOR = 10_000_000
RFC_FACTOR = 35_000_000
MOST_ROUTES = 262_144
UNREACHABLE = "unreachable"


# ---- what TLVs say: RFC 8966, 4; RFC 9079, 7; RFC 9229


@dataclass(frozen=True)
class Key:
    """A destination and a source prefix of one family: each its bits and its length."""

    family: int
    destination: tuple
    source: tuple

    def order(self):
        return self.family, self.destination, self.source


@dataclass(frozen=True)
class Word:
    """What an Update says of a key, or of all: a route, or none where it retracts."""

    key: Key
    route: tuple
    interval: int


def items_in(octets, at=0):
    """TLVs, or sub-TLVs: where each begins, its type and its body; where one runs past the end, the
    last is where it begins alone."""
    while at < len(octets):
        if octets[at] == 0:
            yield at, 0, b""
            at += 1
            continue
        if at + 2 > len(octets) or at + 2 + octets[at + 1] > len(octets):
            yield at, None, None
            return
        end = at + 2 + octets[at + 1]
        yield at, octets[at], octets[at + 2 : end]
        at = end


class Parser:
    """The parser state of a packet (RFC 8966, 4.5), and what its TLVs say."""

    def __init__(self, sender, via_v6):
        self.defaults, self.router_id, self.via_v6 = {}, None, via_v6
        self.hops = {sender.version: int(sender)}

    def word(self, at, kind, body):
        """What a TLV says, if it says something of routes."""
        if kind == ROUTER_ID and len(body) >= 10:
            self.router_id = body[2:10]
        if kind == NEXT_HOP and len(body) >= 2:
            self.set_hop(body[0], body[2:])
        return self.update(at, body) if kind == UPDATE and len(body) >= 10 else None

    def set_hop(self, encoding, octets):
        family, size = {1: (4, 4), 2: (6, 16), 3: (6, 8)}.get(encoding, (None, 0))
        if family and len(octets) >= size:
            own = LINK_LOCAL * (encoding == 3) + octets[:size]
            self.hops[family] = int.from_bytes(own, "big")

    def update(self, at, body):
        encoding, flags, length, omitted = body[:4]
        interval, seqno, metric = (big(body, place, 2) for place in (4, 6, 8))
        if encoding > 4 or encoding == 3 or (encoding == 4 and not self.via_v6):
            if flags & 0x40:
                raise Fault(f"router-id flag in an unread address encoding at {at}")
            return None
        if encoding == 0:
            is_said = (metric, length, omitted) == (INFINITY, 0, 0)
            is_said = is_said and self.source_in(body[10:], None) == (0, 0)
            return Word(None, None, interval) if is_said else None
        family, size = FAMILY[encoding], WIDTH[FAMILY[encoding]] // 8
        default = self.defaults.get(encoding)
        if length > 8 * size or omitted > size or (omitted and default is None):
            return None
        count = max((length + 7) // 8 - omitted, 0)
        if 10 + count > len(body):
            return None
        octets = (default or b"")[:omitted] + body[10 : 10 + count]
        bits = int.from_bytes(octets.ljust(size, b"\0"), "big")
        bits = bits >> 8 * size - length << 8 * size - length
        octets = bits.to_bytes(size, "big")
        if flags & 0x80:
            self.defaults[encoding] = octets
        if flags & 0x40:
            self.router_id = octets[-8:].rjust(8, b"\0")
        source = self.source_in(body[10 + count :], family)
        if source is None:
            return None
        key = Key(family, (bits, length), source)
        if metric == INFINITY:
            return Word(key, None, interval)
        version = 6 if encoding == 4 else family
        hop = self.hops.get(version)
        if self.router_id is None or self.router_id in RESERVED or hop is None:
            return None
        return Word(key, ((version, hop), self.router_id, seqno, metric), interval)

    @staticmethod
    def source_in(octets, family):
        """The source prefix that sub-TLVs say, all if they say none; nothing where their Update is
        ignored. Of no family there may be none."""
        source = 0, 0
        for _, kind, body in items_in(octets):
            if kind is None or (kind >= MANDATORY and kind != SOURCE_PREFIX):
                return None
            if kind != SOURCE_PREFIX:
                continue
            if family is None or source != (0, 0) or not body:
                return None
            width, length = WIDTH[family], body[0]
            count = (length + 7) // 8
            if not 0 < length <= width or len(body) < 1 + count:
                return None
            bits = int.from_bytes(body[1 : 1 + count].ljust(width // 8, b"\0"), "big")
            source = bits >> width - length << width - length, length
        return source


def words_in(packet, sender, before, via_v6):
    """What each TLV of a packet says, with where it lies in its dump, of which so many octets come
    before."""
    for at, kind, _ in items_in(packet, 4):
        if kind is None:
            raise Fault(f"TLV past the end of its packet at {before + at}")
    parser = Parser(sender, via_v6)
    for at, kind, body in items_in(packet, 4):
        yield before + at, parser.word(before + at, kind, body)


def intervals_in(packet):
    """The Interval of each multicast Hello of a packet that says when the next one comes (RFC 8966,
    3.4.1, 4.6.5)."""
    for _, kind, body in items_in(packet, 4):
        if kind != HELLO or len(body) < 6 or body[0] & UNICAST:
            continue
        subs = [sub for _, sub, _ in items_in(body[6:])]
        if big(body, 4, 2) and all(sub is not None and sub < MANDATORY for sub in subs):
            yield big(body, 4, 2)


# ---- the table at a moment


def lasts(word, factor):
    """How long a word counts, in nanoseconds; nothing if it counts for ever."""
    return word.interval * factor if word.interval and factor else None


def has_ended(since, span, moment):
    return span is not None and since + span <= moment


def held(said, key, factor, hold, moment):
    """What is held at a moment for a key of which this was said, in this order, each with its time:
    its route, or unreachable, and when and by which word it became so."""
    state = None
    for time, word in said:
        if word.key is None and not is_held(state, factor, time):
            # A retraction of all is of what is not gone.
            state = None
        elif word.key in (None, key):
            state = ("route", time, word) if word.route else ("retracted", time, word)
    if state is None or not hold and state[0] != "route":
        return None
    if not is_held(state, factor, moment, hold):
        return None
    _, time, word = state
    is_route = word.route and not has_ended(time, lasts(word, factor), moment)
    return word.route if is_route else UNREACHABLE


def is_held(state, factor, moment, hold=True):
    """Whether something is still held, a route or, where it is kept, what is unreachable: a route
    that has expired for as long again as it took to expire."""
    if state is None:
        return False
    what, time, word = state
    span, times = lasts(word, factor), 2 if what == "route" and hold else 1
    return span is None or not has_ended(time, times * span, moment)


def table(said, factor, hold, moment):
    """Each key for which something is held at a moment."""
    keys = {word.key for _, word in said if word.key}
    rows = ((key, held(said, key, factor, hold, moment)) for key in keys)
    return {key: what for key, what in sorted(rows, key=lambda row: row[0].order()) if what}


def stale(said, moment):
    """How many routes were not announced again within 3.5 times their Interval."""
    rows = [table(said, factor, False, moment) for factor in (None, RFC_FACTOR)]
    return len(rows[0]) - len(rows[1])


def contains(prefix, bits, width):
    return prefix[0] >> width - prefix[1] == bits >> width - prefix[1]


def contains_both(key, destination, source):
    width = WIDTH[destination.version]
    return (
        key.family == destination.version
        and contains(key.destination, int(destination), width)
        and contains(key.source, int(source), width)
    )


def best(rows, destination, source):
    """The key of the row with the longest destination prefix, and among these the longest source
    prefix, and what it holds; None and None where there is none."""
    found = [row for row in rows.items() if contains_both(row[0], destination, source)]
    lengths = lambda row: (row[0].destination[1], row[0].source[1])
    return max(found, key=lengths, default=(None, None))


# ---- texts


def seen(what, ignored):
    """What a view sees."""
    if not isinstance(what, tuple):
        return what
    return tuple(None if name in ignored else value for name, value in zip(FIELDS, what))


def route_words(route):
    hop, router_id, seqno, metric = route
    return hop and reader.text_of(*hop), router_id and router_id.hex(), seqno, metric


def what_text(what):
    if not isinstance(what, tuple):
        return what or "none"
    words = ("-" if word is None else word for word in route_words(what))
    return "via {} id {} seqno {} metric {}".format(*words)


def what_json(what):
    if not isinstance(what, tuple):
        return what
    return dict(zip(("next_hop", "router_id", "seqno", "metric"), route_words(what)))


def prefix_text(family, prefix):
    return f"{reader.text_of(family, prefix[0])}/{prefix[1]}"


def key_texts(key):
    return [prefix_text(key.family, prefix) for prefix in (key.destination, key.source)]


def stale_note(count):
    if count:
        texts = f"{count} routes were", "their", "them"
        texts = ("1 route was", "its", "it") if count == 1 else texts
        text = "{} not announced again within 3.5 times {} Interval; --expiry 3.5 leaves {} out"
        yield text.format(*texts), {"note": "expired", "routes": count}


# ---- events


@dataclass
class Event:
    """A line: when, of which sender at which place, what, of which two prefixes or addresses, what
    is held then, and what was before; of an answer of which two prefixes it is; of who is silent
    since when, and how many routes it holds."""

    time: int
    origin: tuple
    what: str
    texts: list
    held: object
    before: object = None
    route: list = None
    silence: tuple = ()

    def text(self, names):
        words = [reader.time_text(self.time), sender_text(self.origin, names), self.what]
        if self.silence:
            since, routes = self.silence
            words += ["since", f"{reader.time_text(since)},", "holding", str(routes)]
            words.append("route" if routes == 1 else "routes")
        texts = self.route if self.what == "answers" else self.texts
        words += [" from ".join(texts)] if texts else []
        words += [what_text(self.held)] if self.held or self.what == "answers" else []
        words += was_words(self.before, self.held) if self.what == "changes" else []
        return " ".join(words) + "\n"

    def json(self, names):
        front = {"time": reader.time_text(self.time), **sender_json(self.origin, names)}
        return reader.json_line(front | {"event": self.what} | self.members())

    def members(self):
        if self.silence:
            return {"since": reader.time_text(self.silence[0]), "routes": self.silence[1]}
        if not self.texts:
            return {}
        members = dict(zip(("destination", "source"), self.texts))
        members |= self.route_json() if self.what == "answers" else {}
        return members | {"answer": what_json(self.held), "before": what_json(self.before)}

    def route_json(self):
        return {"route": self.route and dict(zip(("destination", "source"), self.route))}


def was_words(before, held):
    """The fields that differ, as they were."""
    pairs = zip(("via", "id", "seqno", "metric"), route_words(before), route_words(held))
    return ["was", *(f"{name} {was}" for name, was, now in pairs if was != now)]


def sender_text(origin, names):
    """A sender and its place, which is left out where it is interface 0 alone, without a name."""
    place, *sender = origin
    where = reader.place_text(place, reader.name_at(place, names))
    return reader.text_of(*sender) + ("" if where == "interface 0" else f" {where}")


def sender_json(origin, names):
    place, *sender = origin
    interface, link, vlans = place
    return {
        "sender": reader.text_of(*sender),
        "interface": interface,
        "link": link,
        "vlans": list(vlans),
        "name": reader.name_text(reader.name_at(place, names)) or None,
    }


class Timeline:
    """The rows of all senders, each with when it expires, if it does; and what was told so far.
    Where a pair of addresses is asked for, only rows that contain both. Of those that are lost
    nothing is told."""

    def __init__(self, factor, ignored, pair, most):
        self.factor, self.ignored, self.pair, self.most = factor, ignored, pair, most
        self.rows, self.events, self.answers = {}, [], {}
        # Who is lost, which datagrams were left out, and what is said of both at once.
        self.lost, self.left_out, self.notes = set(), set(), []
        # Of each sender that is waited for when its last Hello came and until when it counts, and
        # who is silent.
        self.hellos, self.silent = {}, set()
        # From when on it is told, and what was answered before that, until it has come.
        self.since, self.early = None, {}

    def add(self, event):
        if self.since is not None and event.time < self.since:
            if event.what == "answers" and self.early is not None:
                self.early[event.origin] = event
        elif event.origin not in self.lost:
            self.events.append(event)

    def open(self, moment):
        """Once it has come, what was answered just before it."""
        if self.since is None or self.early is None or moment < self.since:
            return
        early = [self.early[origin] for origin in sorted(self.early, key=by_sender)]
        kept = [each for each in early if each.held and each.origin not in self.lost]
        self.events = [replace(each, time=self.since, before=None) for each in kept] + self.events
        self.early = None

    def tell(self, time, origin, what, key, route=None, before=None):
        if not self.pair:
            held, was = seen(route, self.ignored), seen(before, self.ignored)
            self.add(Event(time, origin, what, key_texts(key), held, was))

    def tell_answer(self, time, origin):
        """The answer for the pair of addresses, if it is another one than before."""
        if not self.pair:
            return
        rows = {key: route for key, (route, _) in self.rows.get(origin, {}).items()}
        key, held = best(rows, *self.pair)
        found, before = (key, seen(held, self.ignored)), self.answers.get(origin, (None, None))
        if found != before:
            self.answers[origin] = found
            pair, route = list(map(str_of, self.pair)), key and key_texts(key)
            self.add(Event(time, origin, "answers", pair, found[1], before[1], route))

    def leave_out(self, origin, reason, note):
        """A datagram of a sender was left out: said once, and once for each reason where nothing of
        it is missing."""
        if reason in reader.LACKS and origin not in self.lost:
            self.lost.add(origin)
            self.notes.append(f"{note}; its routes are not followed")
        elif reason not in reader.LACKS and (origin, reason) not in self.left_out:
            self.left_out.add((origin, reason))
            self.notes.append(note)

    def expire(self, moment):
        """All that has ended at this moment: by its time what expires, and then who is silent."""
        due = [(end, by_sender(origin), origin) for origin, (_, end) in self.hellos.items()]
        for time, _, origin in sorted(each for each in due if each[0] <= moment):
            self.expire_rows(time)
            since, _ = self.hellos.pop(origin)
            self.silent.add(origin)
            silence = since, len(self.rows.get(origin, {}))
            self.add(Event(time, origin, "silent", [], None, silence=silence))
        self.expire_rows(moment)

    def hear(self, time, origin, packet):
        """The Hellos of a packet of a sender, which returns with the first if it was silent."""
        for interval in intervals_in(packet) if self.factor and not self.pair else ():
            if origin in self.silent:
                self.silent.remove(origin)
                self.add(Event(time, origin, "returns", [], None))
            self.hellos[origin] = time, time + RFC_FACTOR * interval

    def expire_rows(self, moment):
        """All that has expired at this moment, by its own time, key, sender and place."""
        due = [
            (end, key, origin)
            for origin, rows in self.rows.items()
            for key, (_, end) in rows.items()
            if end is not None and end <= moment
        ]
        due.sort(key=lambda each: (each[0], each[1].order(), by_sender(each[2])))
        for time, key, origin in due:
            before, _ = self.rows[origin].pop(key)
            self.tell(time, origin, "expires", key, before=before)
            self.tell_answer(time, origin)

    def take(self, time, origin, at, word):
        """What a word of a sender changes."""
        rows = self.rows.setdefault(origin, {})
        if word.route is None:
            for key in sorted([key for key in rows if word.key in (None, key)], key=Key.order):
                before, _ = rows.pop(key)
                self.tell(time, origin, "retracts", key, before=before)
        elif not self.pair or contains_both(word.key, *self.pair):
            before = rows.get(word.key)
            span = lasts(word, self.factor)
            rows[word.key] = word.route, None if span is None else time + span
            if sum(map(len, self.rows.values())) > self.most:
                raise Fault(f"too many routes at {at}")
            if before is None:
                self.tell(time, origin, "announces", word.key, word.route)
            elif seen(before[0], self.ignored) != seen(word.route, self.ignored):
                self.tell(time, origin, "changes", word.key, word.route, before[0])
        self.tell_answer(time, origin)


class OtherSources(Timeline):
    """The routes to a destination that are not for every source: those that were held just before
    the moment from which on it is told, or since."""

    def __init__(self, told):
        super().__init__(told.factor, told.ignored, None, sys.maxsize)
        self.asked, self.since, self.held = told.pair, told.since, set()

    def tell(self, time, origin, what, key, route=None, before=None):
        if not key.source[1] or not contains_both(replace(key, source=(0, 0)), *self.asked):
            return
        if route or self.since is None or time >= self.since:
            self.held.add((origin, key))
        else:
            self.held.discard((origin, key))


def by_sender(origin):
    return origin[1:], reader.by_place(origin)


def str_of(address):
    return reader.text_of(address.version, int(address))


# ---- commands


def factor_of(word):
    """A factor as so many ten millionths, if the word is one."""
    found = re.fullmatch(r"([0-9]+)(?:\.([0-9]{1,7}))?", word)
    factor = int(found[1]) * FACTOR + int((found[2] or "").ljust(7, "0")) if found else 0
    return factor if 0 < factor <= 1_000 * FACTOR else None


def pair_of(options):
    """The texts of the destination and of the source that are asked for: or else of any source."""
    return options.to, options.src or ("::" if ":" in options.to else "0.0.0.0")


def sender_of(origin):
    return (None, ipaddress.IPv4Address, ipaddress.IPv6Address)[origin[1] // 2 - 1](origin[2])


class FromFirst(reader.Window):
    """The records of some time, also those before the one moment."""

    def has(self, start, time):
        return self.until is None or time <= self.until.at(start)


def window_of(options):
    """The records that are read, where a time is asked for."""
    window = reader.window_of(options.since, options.until)
    if options.command == "events":
        return FromFirst(*((window.since, window.until) if window else ()))
    return reader.Window() if window is None and options.expiry is not None else window


def end_of(found, window):
    """The moment that is meant: the end of the window, or else the latest time that was read."""
    if window and window.until:
        return window.until.at(found.start)
    return max((time for _, time in found.records if time is not None), default=None)


def read(octets, options):
    """What the capture has of the senders that are asked for; and why it is refused, if it is."""
    sender = options.sender and ipaddress.ip_address(options.sender)
    wanted, window = reader.Wanted(sender, options.interface), window_of(options)
    found, fault = reader.Found(), None
    if options.command == "events":
        found.met = set()
    try:
        reader.find(octets, reader.USUAL_OCTETS, wanted, options.accept_cut, window, found)
    except Fault as cause:
        fault = cause
    return found, window, fault


def words_of(found, origin, via_v6):
    """What a sender said in its dump, each with its time."""
    before = 0
    for of, packet, place, _ in found.sent:
        if of == origin:
            for at, word in words_in(packet, sender_of(origin), before, via_v6):
                if word:
                    yield found.records[place][1], word
            before += len(packet)


def table_of(octets, options):
    """The rows of the sender that is asked for, at the moment, and the notes on times."""
    found, window, fault = read(octets, options)
    if fault is None:
        reader.only_place(found)
    said = []
    if len(found.packets) == 1:
        (origin,) = found.packets
        said = list(words_of(found, origin, options.v4_via_v6))
    if fault:
        raise fault
    if not found.packets:
        raise Fault(f"no packets from {str_of(ipaddress.ip_address(options.sender))}")
    factor = options.expiry and factor_of(options.expiry)
    end = end_of(found, window)
    rows = table(said, factor, options.hold, end)
    intervals = [reader.interval_of(sum(found.packets.values(), []))]
    notes = list(reader.time_notes(found, intervals))
    if not factor and reader.span_of(found) is not None:
        notes += stale_note(stale(said, end))
    return rows, reader.texts_of(notes)


def show(octets, options):
    rows, notes = table_of(octets, options)
    lines = (f"{' from '.join(key_texts(key))} {what_text(what)}\n" for key, what in rows.items())
    return Answer(0, "".join(lines).encode(), notes)


def lookup(octets, options):
    rows, notes = table_of(octets, options)
    _, found = best(rows, *map(ipaddress.ip_address, pair_of(options)))
    return Answer(int(not isinstance(found, tuple)), f"{what_text(found)}\n".encode(), notes)


def events(octets, options):
    found, window, fault = read(octets, options)
    pair = options.to and list(map(ipaddress.ip_address, pair_of(options)))
    factor = options.expiry and factor_of(options.expiry)
    told = Timeline(factor, (options.ignore or "").split(","), pair, options.max_routes)
    if window.since and found.records:
        told.since = window.since.at(found.start)
    try:
        play(found, told, options)
        if fault:
            raise fault
        if options.sender and not found.packets:
            raise Fault(f"no packets from {str_of(ipaddress.ip_address(options.sender))}")
        if found.records:
            told.expire(end_of(found, window))
            told.open(end_of(found, window))
    except Fault as cause:
        return Answer(3, lines_of(told, found, options), (*told.notes, str(cause)))
    status, none = (0, ()) if found.packets else (1, ("no Babel packets",))
    intervals = [reader.interval_of(sent) for sent in found.packets.values()]
    notes = [*reader.notes_of(found), *reader.time_notes(found, intervals)]
    if found.not_followed:
        text = f"too many senders at packet {found.not_followed}, and not all are followed"
        notes.append((text, {"note": "not-followed", "packet": found.not_followed}))
    notes += source_notes(found, window, told, options)
    output = lines_of(told, found, options)
    if options.json and not options.quiet:
        output += "".join(reader.json_line(says) for _, says in notes).encode()
    return Answer(status, output, (*told.notes, *none, *reader.texts_of(notes)))


def source_notes(found, window, told, options):
    """Which senders had routes for other sources than that of an answer for any."""
    if not told.pair or options.src:
        return
    others, source = OtherSources(told), pair_of(options)[1]
    play(found, others, options)
    if found.records:
        others.expire(end_of(found, window))
    text = f"the answer is for the source {source}; routes to it are source-specific"
    for origin in sorted({origin for origin, _ in others.held}, key=reader.by_place):
        is_led = not options.sender or len(found.packets) > 1
        lead = f"{sender_text(origin, found.names)}: " if is_led else ""
        whose = sender_json(origin, found.names) if is_led else {}
        yield lead + text, {"note": "source", **whose, "source": source}


def play(found, told, options):
    """Tells of each record in turn what expires before it and what it says. A fault says whose it
    is, where no sender is named."""
    packets, before = {}, {}
    for origin, packet, place, _ in found.sent:
        packets[place] = origin, packet
    unread = {} if options.follows_all else {one[-1]: one for one in found.unread}
    for place, (_, time) in enumerate(found.records):
        told.expire(time)
        if place in packets:
            origin, packet = packets[place]
            start = before.get(origin, 0)
            told.hear(time, origin, packet)
            try:
                for at, word in words_in(packet, sender_of(origin), start, options.v4_via_v6):
                    if word:
                        told.take(time, origin, at, word)
            except Fault as fault:
                told.open(time)
                if options.sender or options.follows_all:
                    raise
                raise Fault(f"{sender_text(origin, found.names)}: {fault}") from fault
            before[origin] = start + len(packet)
        told.open(time)
        if place in unread:
            origin, number, reason, _ = unread[place]
            note = f"note: {sender_text(origin, found.names)}: datagram left out at packet {number}"
            told.leave_out(origin, reason, f"{note}: {reason}")


def lines_of(told, found, options):
    lines = (
        each.json(found.names) if options.json else each.text(found.names) for each in told.events
    )
    return "".join(lines).encode()


def run(octets, options):
    """What a command answers."""
    try:
        found = {"show": show, "lookup": lookup, "events": events}[options.command](octets, options)
    except reader.NoTime as error:
        found = Answer(2, errors=(str(error),))
    except Fault as fault:
        found = Answer(3, errors=(str(fault),))
    if options.quiet:
        found.errors = tuple(line for line in found.errors if not line.startswith("note: "))
    return found


def parser():
    words = argparse.ArgumentParser(
        description=__doc__, formatter_class=argparse.RawDescriptionHelpFormatter
    )
    words.add_argument("command", choices=("show", "lookup", "events"))
    words.add_argument("capture", nargs="?", default="-")
    words.add_argument("--from", dest="sender")
    for name in "interface", "since", "until", "expiry", "ignore", "to", "src":
        words.add_argument(f"--{name}")
    for name in "hold", "v4-via-v6", "accept-cut", "json", "quiet", "follows-all":
        words.add_argument(f"--{name}", action="store_true")
    words.add_argument("--max-routes", type=int, default=MOST_ROUTES)
    return words


def answer_of(words, octets):
    """What these words answer over a capture."""
    options = parser().parse_intermixed_args(list(map(str, words)))
    try:
        reader.window_of(options.since, options.until)
    except reader.NoTime as error:
        return Answer(2, errors=(str(error),))
    if options.expiry is not None and not factor_of(options.expiry):
        return Answer(2, errors=(f"not a factor: {options.expiry}",))
    if options.to and len({ipaddress.ip_address(each).version for each in pair_of(options)}) > 1:
        return Answer(2, errors=("--to and --src are of different families",))
    return run(octets, options)


def main():
    options = parser().parse_intermixed_args()
    is_file = options.capture != "-"
    octets = pathlib.Path(options.capture).read_bytes() if is_file else sys.stdin.buffer.read()
    found = answer_of(sys.argv[1:], octets)
    sys.stdout.buffer.write(found.output)
    sys.stderr.write("".join(f"{line}\n" for line in found.errors))
    return found.status


if __name__ == "__main__":
    sys.exit(main())
