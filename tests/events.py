#!/usr/bin/env python3
"""`events` replayed: at each moment its lines give the rows and answers that `show` and `lookup`
have until then, and no line changes nothing.

    events.py [--most N] [--quick] PROGRAM CAPTURE..

At each moment of a capture, or at N of them; with `--quick` without the options that the plain
program lacks. It leaves out a capture in which the times of the packets of a sender at a place run
backwards, or come before an expiry that is already told: it is told before the first record of its
time or later, whoever sent that.
"""

import argparse
import concurrent.futures
import ipaddress
import json
import os
import pathlib
import random
import re
import select
import struct
import subprocess
import sys
import tempfile
import xml.etree.ElementTree
from time import monotonic

import capture_files as made
import capture_reader as reader
import extract
from checks import DRILL, ROUTERS, TOP, Tally, built_program

import moments
import says
import timed
from agree import SENDERS

TIMELINE = TOP / "examples/timeline"
SQUARE = TOP / "examples/square"
# What docs/drill.svg calls the routers of examples/drill.
BORDERS = "b1=fe80::5eff:fe00:b401", "b2=fe80::5eff:fe00:b403"
CAPTURES = ROUTERS / "babeld-basic-a.pcap", DRILL / "drill.pcap"
FACTORS = None, "3.5", "1"
# Of a capture, factor and sender: so many moments and pairs of addresses, from among all.
MOMENTS = 40
PAIRS = 3
SEED = 1
RANDOM = 40
RANDOM_LONG = 400
# Of the TLVs of random packets, so many in each, every other one is a request.
RANDOM_TLVS = 30
ROUTE_REQUEST, SEQNO_REQUEST = 9, 10
KEYS = 400
UPDATES = 60
START = bytes.fromhex("060a0000 0200000000000001 07060100 c0000201")
WILDCARD = bytes.fromhex("080a0000 0000 0064 0001 ffff")
CHANGES = {"announces": False, "changes": True, "retracts": True, "expires": True}
SILENCES = "silent", "returns"
# An Update of address encoding 4, which is ignored unless that is asked for (RFC 9229); and how long
# a note may take that is to come at once.
ENCODING_4 = bytes.fromhex("080e0400 20000064 00010100 0a000001")
AT_ONCE = 30
OPTIONS = [], ["--v4-via-v6"], ["--ignore", "seqno,metric"]


def run(program, words, capture):
    done = subprocess.run([program, *words, capture], capture_output=True, text=True)
    lines = done.stderr.splitlines()
    errors = [reader.without_absence(line) for line in lines if not line.startswith("hint: ")]
    return done.returncode, done.stdout.splitlines(), errors


def what_text(answer):
    """An answer of JSON as the text has it."""
    if not isinstance(answer, dict):
        return answer or "none"
    words = ("-" if value is None else value for value in answer.values())
    return "via {} id {} seqno {} metric {}".format(*words)


def line_of(event):
    """A line of JSON as the text has it."""
    place = place_of(event)
    name = event["name"] or ""
    where = reader.place_text(place, b"")
    where = where.replace(f" {place[0]}", f" {place[0]} ({name})", 1) if name else where
    words = [event["time"], event["sender"]] + ([] if where == "interface 0" else [where])
    words.append(event["event"])
    if event["event"] == "requests":
        return " ".join([*words, request_text(*what_asked(event))])
    if event["event"] in SILENCES:
        return " ".join(words + silence_words(event))
    route = event["route"] if event["event"] == "answers" else event
    if not route:
        return " ".join([*words, "none"])
    words.append(f"{route['destination']} from {route['source']}")
    words += [what_text(event["answer"])] if event["answer"] else []
    return " ".join(words + (was_words(event) if event["event"] == "changes" else []))


def silence_words(event):
    if event["event"] == "returns":
        return []
    count = event["routes"]
    return ["since", f"{event['since']},", "holding", f"{count} route{'s' * (count != 1)}"]


def was_words(event):
    """Of what was held before, the fields that differ."""
    names = zip(("via", "id", "seqno", "metric"), event["before"].items())
    differ = [(name, was) for name, (field, was) in names if was != event["answer"][field]]
    return ["was", *(f"{name} {was}" for name, was in differ)] if differ else []


def what_asked(event):
    return [event[name] for name in ("to", "destination", "source", "router_id", "seqno")]


def request_text(to, destination, source, router_id, seqno):
    front = "" if to is None else f"to {to} "
    if destination is None:
        return f"{front}all"
    end = "" if router_id is None else f" id {router_id} seqno {seqno}"
    return f"{front}{destination} from {source}{end}"


def place_of(event):
    return event["interface"], event["link"], tuple(event["vlans"])


def events_of(program, words, capture):
    """The events of a capture, as JSON has them, and what is wrong with their texts or their
    status."""
    status, lines, errors = run(program, ["events", "--quiet", *words], capture)
    other = run(program, ["events", "--quiet", "--json", *words], capture)
    events = [json.loads(line) for line in other[1]]
    if (status, errors) != (other[0], other[2]) or lines != list(map(line_of, events)):
        return events, "with --json another text"
    return events, f"status {status}: {errors}" if status not in (0, 1) else ""


def find(octets, window, sender=None, place=None):
    """What a plain reader finds in a capture, of all senders or of one at one place."""
    found, sender = reader.Found(), sender and ipaddress.ip_address(sender)
    wanted = reader.Wanted(sender, place and reader.place_asked(place))
    return reader.find(octets, reader.USUAL_OCTETS, wanted, False, window, found)


def origins_of(found):
    """Each sender at each place, as events name them, with the times of its packets."""
    for origin in sorted(found.packets, key=reader.by_place):
        place, *sender = origin
        times = [found.records[at][1] for at in found.places[origin]]
        yield (reader.text_of(*sender), place), times


def is_refused(octets, window, origin):
    """Whether a datagram of a sender is not all there, so that it has no table."""
    try:
        find(octets, window, *origin)
    except reader.Fault:
        return True
    return False


def is_early(found, events):
    """Whether a packet of a sender comes before an expiry of its, or before it is silent, and after a
    record of that time or later."""
    times = [reader.time_text(time) for _, time in found.records]
    origins = {(reader.text_of(*each[1:]), each[0]): each for each in found.packets}
    for event in (event for event in events if event["event"] in ("expires", "silent")):
        ends = event["time"]
        told = next((place for place, time in enumerate(times) if time >= ends), len(times))
        own = found.places[origins[event["sender"], place_of(event)]]
        if any(place > told and times[place] < ends for place in own):
            return True
    return False


def replayed(events):
    """After each event of a sender its time and the rows that it leaves; a problem where an event
    changes nothing, can't be, or says that something else was held before, or as many routes."""
    rows = {}
    for event in events:
        if event["event"] in SILENCES:
            if event.get("routes", len(rows)) != len(rows):
                yield event["time"], dict(rows), f"silent with {len(rows)} routes"
            continue
        key, kind = f"{event['destination']} from {event['source']}", event["event"]
        held, after = rows.get(key), event["answer"] and what_text(event["answer"])
        before = event["before"] and what_text(event["before"])
        if CHANGES[kind] != (held is not None) or held == after or held != before:
            yield event["time"], {}, f"it {kind} {key}, which was {held} before"
        rows.pop(key, None)
        if after:
            rows[key] = after
        yield event["time"], dict(rows), ""


def at(states, moment, nothing):
    """What the last state up to a moment says: the states are in order of their times."""
    last = nothing
    for time, state in states:
        if time > moment:
            break
        last = state
    return last


def time_word(time):
    return f"@{time // made.SECOND}.{time % made.SECOND:09}"


def moments_of(found, events, rng, most):
    """The times of records and events, and between them, some of all."""
    record_times = [time for _, time in found.records]
    texts = {reader.time_text(time): time for time in record_times}
    others = {event["time"] for event in events} - set(texts)
    texts.update((text, reader.moment_of(text).nanoseconds) for text in others)
    times = sorted(texts.values())
    times += [(one + other) // 2 for one, other in zip(times, times[1:])]
    times = sorted({time for time in times if time <= record_times[-1]})
    return sorted(rng.sample(times, min(most, len(times))))


def check_tables(program, words, capture, origin, times, events, moments):
    """The rows at each moment are those that the events up to then leave."""
    states = []
    for time, rows, problem in replayed(events):
        if problem:
            yield f"{time}: {problem}"
        states.append((time, rows))
    command = ["show", "--quiet"]
    if "--ignore" in words:
        command = ["pairs", "--routes", "--quiet"]
    for moment in moments:
        asked = [*command, *words, *named(origin), "--until", time_word(moment)]
        wanted = rows_text(at(states, reader.time_text(moment), {}))
        status, lines, errors = run(program, asked, capture)
        if not any(time <= moment for time in times):
            wanted, lines = [f"no packets from {origin[0]}"], errors
        elif status:
            lines = errors
        if sorted(lines) != sorted(wanted):
            yield f"{' '.join(asked)}: {lines} in place of {wanted}"


def rows_text(rows):
    return [f"{key} {what}" for key, what in rows.items()]


def is_in_order(found, moment):
    """Whether each record before a moment comes before those of then and later."""
    early = [time < moment for _, time in found.records]
    return early == sorted(early, reverse=True)


def named(origin):
    sender, place = origin
    return ["--from", sender, "--interface", reader.place_asked(place)]


def check_answers(program, words, capture, origin, times, pair, moments, opening):
    """The answer at each moment is the last that the events up to then tell; from some of them on
    it is told, too."""
    asked = [*words, *named(origin), "--to", pair[0], "--src", pair[1]]
    events, problem = events_of(program, asked, capture)
    if problem:
        yield problem
    states = [(event["time"], what_text(event["answer"])) for event in events]
    before, route = "none", None
    for event, (time, after) in zip(events, states):
        is_same = (event["route"], after) == (route, before)
        if is_same or what_text(event["before"]) != before:
            yield f"{' '.join(asked)}: told at {time}: {after}, which was {before} before"
        before, route = after, event["route"]
    for moment in moments:
        if not any(time <= moment for time in times):
            continue
        _, lines, errors = run(
            program, ["lookup", "--quiet", *asked, "--until", time_word(moment)], capture
        )
        wanted = at(states, reader.time_text(moment), "none")
        if lines != [wanted]:
            yield f"lookup {' '.join(asked)} until {moment}: {lines} {errors} in place of {wanted}"
    yield from check_since(program, asked, capture, events, opening)


def check_until(program, words, capture, events, moments):
    """Until a moment there are the events up to then."""
    for moment in moments:
        asked = [*words, "--until", time_word(moment)]
        given, problem = events_of(program, asked, capture)
        given.sort(key=lambda event: event["time"])
        wanted = [event for event in events if event["time"] <= reader.time_text(moment)]
        if problem or given != wanted:
            yield f"events {' '.join(asked)}: {problem} {given} in place of {wanted}"


def check_since(program, words, capture, events, moments):
    """From a moment on there are the events of then and later, and before them the answer of one
    sender just before it."""
    for moment in moments:
        asked, since = [*words, "--since", time_word(moment)], reader.time_text(moment)
        given, problem = events_of(program, asked, capture)
        given.sort(key=lambda event: event["time"])
        early = [event for event in events if event["time"] < since and event["event"] == "answers"]
        early = [event for event in early[-1:] if event["answer"]]
        wanted = [{**event, "time": since, "before": None} for event in early]
        wanted += [event for event in events if event["time"] >= since]
        if problem or given != wanted:
            yield f"events {' '.join(asked)}: {problem} {given} in place of {wanted}"


def check_filters(program, words, capture, events, some):
    """A filter keeps the events of its keys, or from or to its router-id, and no others."""
    for one in some:
        key = one["destination"], one["source"]
        filters = {
            ("--within", key[0]): lambda event: is_within(event["destination"], key[0]),
            ("--match", key[0]): lambda event: is_within(key[0], event["destination"]),
            ("--source", key[1]): lambda event: event["source"] == key[1],
        }
        router_id = next(iter(ids_of(one)))
        if router_id:
            filters["--id", router_id] = lambda event: router_id in ids_of(event)
        for asked, keeps in filters.items():
            given, problem = events_of(program, [*words, *asked], capture)
            given.sort(key=lambda event: event["time"])
            wanted = [event for event in events if event["event"] in SILENCES or keeps(event)]
            if problem or given != wanted:
                yield f"events {' '.join(asked)}: {problem} {given} in place of {wanted}"


def is_within(inner, outer):
    """Whether a prefix is another, or inside it."""
    inner, outer = map(ipaddress.ip_network, (inner, outer))
    return inner.version == outer.version and inner.subnet_of(outer)


def ids_of(event):
    """The router-ids of the routes before and after an event."""
    return {route["router_id"] for route in (event["answer"], event["before"]) if route}


def problems_of(program, capture, factor, options, most, pool):
    """What is wrong with the events of a capture; nothing where it is left out."""
    rng = random.Random(SEED)
    words = options + ([] if factor is None else ["--expiry", factor])
    octets = capture.read_bytes()
    window = reader.Window()
    found = find(octets, window)
    origins = dict(origins_of(found))
    if not found.records or any(sorted(times) != times for times in origins.values()):
        return None
    events, problem = events_of(program, words, capture)
    if problem:
        return [problem]
    if is_early(found, events):
        return None
    events.sort(key=lambda event: event["time"])
    few = moments_of(found, events, rng, most // 4)
    jobs = [check(program, words, capture, events, few) for check in (check_until, check_since)]
    changes = [event for event in events if event["event"] in CHANGES]
    some = rng.sample(changes, min(1, len(changes)))
    jobs.append(check_filters(program, words, capture, events, some))
    for origin, times in origins.items():
        if is_refused(octets, window, origin):
            continue
        own = [event for event in events if (event["sender"], place_of(event)) == origin]
        times_asked = moments_of(found, events, rng, most)
        jobs.append(check_tables(program, words, capture, origin, times, own, times_asked))
        keys = sorted({(event["destination"], event["source"]) for event in own if "answer" in event})
        for key in rng.sample(keys, min(PAIRS, len(keys))) if "--ignore" not in words else []:
            pair = [prefix.split("/")[0] for prefix in key]
            some = times_asked[:: max(len(times_asked) // 10, 1)]
            told = [moment for moment in some if is_in_order(found, moment)]
            jobs.append(check_answers(program, words, capture, origin, times, pair, some, told))
    return sum(pool.map(list, jobs), [])


def update(rng, key):
    """An Update of the host with this number, or its retraction."""
    interval, metric = rng.choice((100, 200, 400)), rng.choice((256, 256, 512, 0xFFFF))
    fixed = struct.pack(">6BHHH", 8, 14, 1, 0, 32, 0, interval, 1, metric)
    return fixed + (10 << 24 | key).to_bytes(4, "big")


def many_routes(rng):
    """Routes of two senders that come, change, go one by one, together and in time, and come again
    in any order, so that what was kept for many of them is free, and used again."""
    time = made.TIME
    for sender in ["fe80::1", "fe80::2"] * 8:
        keys = rng.sample(range(KEYS), KEYS // rng.choice((1, 2, 8)))
        tlvs = [WILDCARD] * (rng.randrange(3) == 0) + [update(rng, key) for key in keys]
        for place in range(0, len(tlvs), UPDATES):
            body = START + b"".join(tlvs[place : place + UPDATES])
            packet = b"\x2a\2" + made.number(len(body)) + body
            yield made.Record(made.ethernet(made.ip(sender, made.udp(packet))), time=time)
            time += made.SECOND // 100
        time += rng.choice((0, 1, 4)) * made.SECOND


def captures_of(folder, long):
    """Captures of the repository, and made of its dumps and at random."""
    yield from CAPTURES
    path = folder / "many-routes.pcap"
    path.write_bytes(made.pcap(list(many_routes(random.Random(SEED)))))
    yield path
    for name, sender in SENDERS.items():
        records = extract.records_of((ROUTERS / f"{name}.dump").read_bytes(), sender)
        path = folder / f"{name}.pcap"
        path.write_bytes(made.pcap(records))
        yield path
    for turn in range(RANDOM_LONG if long else RANDOM):
        path = folder / f"random-{turn}.pcap"
        path.write_bytes(timed.capture(random.Random(f"events {turn}")))
        if moments.answer_of(["events", "--v4-via-v6"], path.read_bytes()).status == 0:
            yield path


def check_captures(program, captures, tally, most, options=OPTIONS):
    """Replays the events of each capture that can be replayed; how many these are."""
    replayed_captures = 0
    with concurrent.futures.ThreadPoolExecutor(os.cpu_count()) as pool:
        for capture in captures:
            for factor in FACTORS:
                for words in options:
                    found = problems_of(program, capture, factor, list(words), most, pool)
                    if found is None:
                        continue
                    replayed_captures += 1
                    what = f"events of {capture.name}, {factor}, {' '.join(words)}"
                    tally.check(what, "\n".join(found[:5]))
    return replayed_captures


def requested(kind, body, via_v6):
    """What a TLV requests, as the members of its line of JSON have it, or None: RFC 8966, 4.6.10,
    4.6.11; RFC 9079, 7.3, 7.4; RFC 9229, 2.3."""
    fixed = {ROUTE_REQUEST: 2, SEQNO_REQUEST: 14}.get(kind)
    if fixed is None or len(body) < fixed:
        return None
    encoding, length, rest = body[0], body[1], body[fixed:]
    family = {1: 4, 2: 6, 4: 4 if via_v6 else None}.get(encoding)
    end = says.octets_for(length)
    try:
        if kind == ROUTE_REQUEST and encoding == 0 and length == 0:
            says.source_of("wildcard", rest)
            return [None] * 4
        if family is None or length > says.WIDTH[family] or len(rest) < end:
            return None
        source = says.source_of(family, rest[end:])
    except says.Ignored:
        return None
    prefixes = says.prefix_from(family, length, rest[:end]), source
    texts = [says.text_of_prefix(family, prefix) for prefix in prefixes]
    of_router = [body[6:14].hex(), says.number(body[2:4])]
    return texts + (of_router if kind == SEQNO_REQUEST else [None, None])


def one_text(destination):
    """The address of a node, or None: RFC 4291, 2.7; RFC 1112, 4; RFC 919, 7."""
    if destination.is_multicast or str(destination) == "255.255.255.255":
        return None
    return reader.text_of(destination.version, int(destination))


def requests_of(octets, via_v6):
    """What the packets of a capture request, with their times and senders, and of whom."""
    found = find(octets, reader.Window())
    for (place, *sender), packet, record, to in found.sent:
        front = [reader.time_text(found.records[record][1]), reader.text_of(*sender), place]
        for _, kind, body in says.tlvs_of(4, packet[4:])[0]:
            request = requested(kind, body, via_v6)
            if request is not None:
                yield [*front, one_text(to), *request]


def random_requests(rng):
    """Packets of two senders, to one or to many, of requests, and of Updates and other TLVs among
    them."""
    time = made.TIME
    for turn in range(UPDATES):
        stems = [says.octets_of(rng, 16) for _ in range(2)]
        taste = says.Taste((0, 1, 1, 2, 2, 3, 4, 5), (0,), (0, 8, 15, 16, 31, 32), stems)
        tlvs = []
        for _ in range(RANDOM_TLVS):
            update = says.random_update(rng, taste)
            kind = rng.choice((6, 8, ROUTE_REQUEST, ROUTE_REQUEST, SEQNO_REQUEST, SEQNO_REQUEST))
            body = says.random_body(rng, taste, kind)
            if kind in (ROUTE_REQUEST, SEQNO_REQUEST):
                fixed = says.octets_of(rng, 12 if kind == SEQNO_REQUEST else 0)
                width = says.WIDTH[6 if update[0] == 2 else 4]
                whole = taste.stems[0][: says.octets_for(update[2])]
                body = update[:1] + update[2:3] + fixed + whole
                body += says.random_sub_tlvs(rng, taste, width)
                body = says.mostly(rng, 9, body, bytes(2) + body[2:], body[: rng.randrange(20)])
            tlvs.append(bytes((kind, len(body))) + body)
        packet = b"".join(tlvs)
        packet = b"\x2a\2" + made.number(len(packet)) + packet
        sender = rng.choice(("fe80::1", "fe80::2"))
        to = rng.choice(("ff02::1:6", "fe80::2", "feff::1", "ff00::", "2001:db8::1"))
        carried = made.ip(sender, made.udp(packet), to=to)
        yield made.Record(made.ethernet(carried), time=time + turn)


def check_requests(program, capture, tally):
    """With `--requests` there are, beside the other lines, those of each request; from a moment on,
    too."""
    found = find(capture.read_bytes(), reader.Window())
    for words in [], ["--v4-via-v6"]:
        asked_for = ["--requests", *words]
        events, problem = events_of(program, asked_for, capture)
        others, _ = events_of(program, words, capture)
        asked = [event for event in events if event["event"] == "requests"]
        fronts = [[event["time"], event["sender"], place_of(event)] for event in asked]
        told = [front + what_asked(event) for front, event in zip(fronts, asked)]
        wanted = list(requests_of(capture.read_bytes(), "--v4-via-v6" in words))
        problem = problem or ("" if told == wanted else f"{told} in place of {wanted}")
        problem = problem or ("" if [e for e in events if e not in asked] == others else "others")
        events.sort(key=lambda event: event["time"])
        times = moments_of(found, events, random.Random(SEED), PAIRS)
        problem = problem or "\n".join(check_since(program, asked_for, capture, events, times))
        tally.check(f"requests in {capture.name}, {' '.join(words)}", problem)


def check_at_once(program, tally):
    """What is not read of a live run is said before more of it comes."""
    body = START + ENCODING_4
    packet = b"\x2a\2" + made.number(len(body)) + body
    record = made.Record(made.ethernet(made.ip("fe80::1", made.udp(packet))))
    first, both = made.pcap([record]), made.pcap([record, record])
    wanted = f"note: fe80:0:0:0:0:0:0:1: ignored TLV at {4 + len(START)}: unknown-encoding"
    pipe = subprocess.PIPE
    with subprocess.Popen([program, "events", "-"], stdin=pipe, stdout=pipe, stderr=pipe) as live:
        live.stdin.write(first)
        live.stdin.flush()
        said = line_within(live.stderr, AT_ONCE)
        _, later = live.communicate(both[len(first) :])
    problem = "" if said == wanted else f"{said!r} in place of {wanted!r}"
    problem = problem or ("it is said again" if wanted in later.decode() else "")
    tally.check("a note of a live run at once", problem)


def forged(last):
    """Frames: a router announces a route, then other senders, up to this one, send nothing, the last
    announces a route, too, and the router changes its own."""
    update = START + bytes.fromhex("080a0100 0000 0064 0001")
    frame = lambda body: made.ip("fe80::", made.udp(b"\x2a\2" + made.number(len(body)) + body))
    empty, first, second = map(frame, (b"", update + b"\0\x60", update + b"\0\xc0"))
    sent = [(1, first), *((number, empty) for number in range(2, last + 1)), (last, first)]
    for number, octets in [*sent, (1, second)]:
        yield octets[:20] + made.number(number, 4) + octets[24:]


def check_forged(program, tally):
    """Past 65,536 senders it is told of those that announce, and only of them; that there are others
    is said, and ends no run, unless it is strict."""
    number = reader.MOST_SENDERS + 1
    frames = list(forged(number))
    octets = made.pcap(list(map(made.Record, frames)), link=101)
    router, last = (reader.text_of(6, 0xFE80 << 112 | sender) for sender in (1, number))
    many = f"too many senders at packet {number}, and not all are followed"
    with tempfile.NamedTemporaryFile(suffix=".pcap") as file:
        file.write(octets)
        file.flush()
        status, lines, errors = run(program, ["events", "--json"], file.name)
        strict = run(program, ["events", "--strict", "--quiet"], file.name)
    events = [json.loads(line) for line in lines]
    told = [(each["sender"], each["event"]) for each in events if "event" in each]
    notes = [note for note in events if note.get("note") == "not-followed"]
    said = [error for error in errors if "too many" in error]
    at = len(octets) - sum(16 + len(frame) for frame in frames[-3:])
    for what, got, wanted in (
        ("status", status, 0),
        ("lines", told, [(router, "announces"), (last, "announces"), (router, "changes")]),
        ("objects", notes, [{"note": "not-followed", "packet": number}]),
        ("notes", said, [f"note: {last}: {many}", f"note: {many}"]),
        ("strict", (strict[0], strict[2]), (3, [f"too many senders at {at}"])),
    ):
        tally.check(f"forged senders: {what}", "" if got == wanted else f"{got}, not {wanted}")


def line_within(stream, seconds):
    """The first line that a stream gives, if it gives it within so many seconds."""
    octets, ends = b"", monotonic() + seconds
    while b"\n" not in octets:
        if not select.select([stream], [], [], max(ends - monotonic(), 0))[0]:
            return ""
        more = os.read(stream.fileno(), 65_536)
        if not more:
            return ""
        octets += more
    return octets.decode().splitlines()[0]


def check_picture(program, capture, tally):
    """The picture of a capture's events has a bar for each time that a route was held, and one for
    each next hop."""
    words = ["--expiry", "1", "--ignore", "router-id,seqno,metric"]
    events, problem = events_of(program, words, capture)
    told = "".join(f"{json.dumps(event)}\n" for event in events)
    run = subprocess.run([TIMELINE], input=told, capture_output=True, text=True)
    held = [event["answer"]["next_hop"] for event in events if event.get("answer")]
    bars = len(re.findall(r'<rect class="c', run.stdout)), run.stderr
    wanted = len(held) + len(set(held)), ""
    problem = problem or ("" if bars == wanted else f"{bars} in place of {wanted}")
    tally.check(f"the picture of {capture.name}", problem)
    xml.etree.ElementTree.fromstring(run.stdout)


def check_drill(program, tally):
    """The picture in docs/ is that of examples/drill."""
    capture = DRILL / "drill.pcap"
    _, events, _ = run(program, ["events", "--quiet", "--expiry", "3.5", "--json"], capture)
    last = max(time for _, time in find(capture.read_bytes(), reader.Window()).records)
    command, told = [TIMELINE, "--end", reader.time_text(last), *BORDERS], "\n".join(events)
    check_drawn(command, told, "drill.svg", tally)


def check_square(program, tally):
    """The picture in docs/ is that of the routes and the blocks of examples/blocks.dump."""
    words = [program, "pairs", "--json", "--from", "192.0.2.1", TOP / "examples/blocks.dump"]
    routes, blocks = (
        subprocess.run([*words, *more], check=True, capture_output=True, text=True).stdout
        for more in (["--routes"], [])
    )
    with tempfile.NamedTemporaryFile("w") as file:
        file.write(routes)
        file.flush()
        check_drawn([SQUARE, file.name], blocks, "blocks.svg", tally)


def check_drawn(command, told, name, tally):
    """What a command draws of this is a picture in docs/."""
    drawn = subprocess.run(command, input=told, capture_output=True, text=True).stdout
    problem = "" if drawn == (TOP / "docs" / name).read_text() else "it is another one"
    tally.check(f"docs/{name}", problem)


def check(tally, long):
    program = built_program()
    check_picture(program, ROUTERS / "babeld-basic-a.pcap", tally)
    check_drill(program, tally)
    check_square(program, tally)
    check_at_once(program, tally)
    check_forged(program, tally)
    with tempfile.TemporaryDirectory() as folder:
        most = 10 * MOMENTS if long else MOMENTS
        check_captures(program, captures_of(pathlib.Path(folder), long), tally, most)
        path = pathlib.Path(folder) / "requests.pcap"
        path.write_bytes(made.pcap(list(random_requests(random.Random(SEED)))))
        for capture in (*CAPTURES, path):
            check_requests(program, capture, tally)


def main():
    parser = argparse.ArgumentParser(
        description=__doc__, formatter_class=argparse.RawDescriptionHelpFormatter
    )
    parser.add_argument("program", type=pathlib.Path)
    parser.add_argument("captures", type=pathlib.Path, nargs="+", metavar="capture")
    parser.add_argument("--most", type=int, default=1 << 30)
    parser.add_argument("--quick", action="store_true")
    asked, tally = parser.parse_args(), Tally()
    options = [words for words in OPTIONS if not asked.quick or "--ignore" not in words]
    program = asked.program.resolve()
    every = check_captures(program, asked.captures, tally, asked.most, options)
    print(f"{every} replays of {len(asked.captures)} captures: {tally}")
    return 1 if tally.failed else 0


if __name__ == "__main__":
    sys.exit(main())
