#!/usr/bin/env python3
"""Runs a program over random dumps, and compares what it says of each with what a slow program has
from the definitions.

    says.py PROGRAM [--dumps N] [--seed N]

Each dump is a few packets of TLVs, made so that each row of the order of the checks in INPUT and
each fault of octets or of a limit is met: TLVs too short, Omitted octets against the default prefix
of each encoding, both flags, retractions of one key and of all, encodings that are not read,
sub-TLVs of each kind, prefixes with bits past their length, trailers, packets cut. Each is read
four times, from a sender of each family, with and without `--v4-via-v6`, and as chance has it with
`--hold` and under low limits. `show`, also with `--json`, and `normalise`, also with `--strict`,
must write what the definitions say and end with the status of that; what `normalise` writes must be
read as rows that are the pairs. Exits 1 where they do not, or where a row or a fault was never met.
The same seed makes the same dumps.

Not met is the fault `out of memory`, which no octets have: `./check memory` meets that.
"""

import argparse
import collections
import concurrent.futures
import functools
import itertools
import json
import os
import pathlib
import random
import subprocess
import sys

from definition import ANY, INFINITY, WIDTH, canonical_pairs, text_of_address, text_of_prefix

REASONS = (
    "short unknown-encoding wildcard-finite wildcard-prefix bad-plen bad-omitted no-default"
    " short-prefix bad-sub unknown-mandatory two-sources bad-source wildcard-source no-router-id"
    " reserved-router-id no-next-hop"
).split()
SENDERS = {4: "192.0.2.1", 6: "fe80:0:0:0:0:0:0:1"}

# How a dump is read: the family of its sender, with --v4-via-v6, with --hold, how many routes there
# may be, and how many octets.
How = collections.namedtuple("How", "family via_v6 hold routes octets")


class Ignored(Exception):
    """Why a TLV is ignored."""


class Refused(Exception):
    """Why a dump is refused, as its text."""


# ---- octets: RFC 8966, 4.2, 4.3


def number(octets):
    return int.from_bytes(octets, "big")


def tlvs_of(at, octets):
    """The TLVs that the octets at this offset begin with, each as its offset, its type and its
    body; and where they end."""
    tlvs, place = [], 0
    while place < len(octets):
        kind, size = octets[place], 1
        if kind:
            size = 2 + number(octets[place + 1 : place + 2])
        if place + size > len(octets):
            break
        tlvs.append((at + place, kind, octets[place + 2 : place + size]))
        place += size
    return tlvs, at + place


def packets_of(octets):
    """The TLVs of each packet, up to the first octets that are none."""
    at = 0
    while at < len(octets):
        header = octets[at : at + 4]
        body = octets[at + 4 : at + 4 + number(header[2:])]
        if len(header) < 4:
            raise Refused(f"truncated packet at {at}")
        if header[0] != 42:
            raise Refused(f"bad magic at {at}")
        if header[1] != 2:
            raise Refused(f"bad version at {at}")
        if len(body) < number(header[2:]):
            raise Refused(f"truncated packet at {at}")
        tlvs, end = tlvs_of(at + 4, body)
        at += 4 + len(body)
        if end < at:
            raise Refused(f"TLV past the end of its packet at {end}")
        yield tlvs


# ---- what is formed of octets: RFC 8966, 4.1.4, 4.1.5, 4.6.8, 4.6.9; RFC 9079, 7. A prefix is
# (bits, length).


def octets_for(bits):
    return (bits + 7) // 8


def prefix_from(family, length, octets):
    width = WIDTH[family]
    bits = number(octets.ljust(width // 8, b"\0")) >> width - length
    return bits << width - length, length


def formed(state, body):
    """The prefix of an Update of an encoding that is read, and the octets after its field."""
    family, length, omitted = state.encodings[body[0]][0], body[2], body[3]
    default = state.defaults.get(body[0])
    end = 10 + max(0, octets_for(length) - omitted)
    if length > WIDTH[family]:
        raise Ignored("bad-plen")
    if omitted > WIDTH[family] // 8:
        raise Ignored("bad-omitted")
    if omitted and default is None:
        raise Ignored("no-default")
    if len(body) < end:
        raise Ignored("short-prefix")
    octets = (default or b"")[:omitted] + body[10:end]
    return prefix_from(family, length, octets), body[end:]


def address_octets(family, bits):
    return bits.to_bytes(WIDTH[family] // 8, "big")


def router_id_of(family, prefix):
    """The last 8 octets of an address, with zeros before one of IPv4."""
    return address_octets(family, prefix[0])[-8:].rjust(8, b"\0")


def next_hop_in(body):
    """The family and the address of a Next Hop, and the octets after them."""
    if len(body) < 2:
        raise Ignored("short")
    if body[0] not in (1, 2, 3):
        raise Ignored("unknown-encoding")
    end = 2 + {1: 4, 2: 16, 3: 8}[body[0]]
    if len(body) < end:
        raise Ignored("short-prefix")
    family, before = (4, b"") if body[0] == 1 else (6, b"\xfe\x80" + bytes(6))
    octets = (before if body[0] == 3 else b"") + body[2:end]
    return family, text_of_address(family, number(octets)), body[end:]


def source_of(place, octets):
    """The source prefix that the sub-TLVs give in an Update of a family, a wildcard, or elsewhere;
    or why their TLV is ignored: RFC 8966, 4.4; RFC 9079, 5.2, 7."""
    items, end = tlvs_of(0, octets)
    source = ANY
    for _, kind, body in items:
        if kind == 128 and place == "wildcard":
            raise Ignored("wildcard-source")
        if kind == 128 and place in WIDTH:
            if source != ANY:
                raise Ignored("two-sources")
            if not body or not 0 < body[0] <= WIDTH[place] or len(body) <= octets_for(body[0]):
                raise Ignored("bad-source")
            source = prefix_from(place, body[0], body[1 : 1 + octets_for(body[0])])
        elif kind >= 128:
            raise Ignored("unknown-mandatory")
    if end < len(octets):
        raise Ignored("bad-sub")
    return source


# ---- the parser state: RFC 8966, 4.5. Of each encoding that is read the families of its prefixes
# and of its next hops, and the octets of its default prefix; the router-id; the next hop of each
# family.
State = collections.namedtuple("State", "encodings defaults router_id hops")


def state_at_start(how):
    encodings = {1: (4, 4), 2: (6, 6), **({4: (4, 6)} if how.via_v6 else {})}
    return State(encodings, {}, None, {how.family: SENDERS[how.family]})


def state_after(state, kind, body):
    """What a TLV makes of the state before it: nothing, if what it would set can't be formed."""
    try:
        if kind == 6 and len(body) >= 10:
            return state._replace(router_id=body[2:10])
        if kind == 7:
            family, hop, _ = next_hop_in(body)
            return state._replace(hops={**state.hops, family: hop})
        if kind == 8 and len(body) >= 10 and body[0] in state.encodings:
            family, (prefix, _) = state.encodings[body[0]][0], formed(state, body)
            if body[1] & 0x80:
                default = address_octets(family, prefix[0])
                state = state._replace(defaults={**state.defaults, body[0]: default})
            if body[1] & 0x40:
                state = state._replace(router_id=router_id_of(family, prefix))
    except Ignored:
        pass
    return state


# ---- what a TLV says: RFC 8966, 4.6; RFC 9079, 5; RFC 9229, 2.2. It says nothing (None), or for a
# key, or for all keys, the route that it announces, or that there is none.
ALL = "all"


def update_says(state, at, body):
    if len(body) < 10:
        raise Ignored("short")
    encoding, flags, metric = body[0], body[1], number(body[8:10])
    if encoding == 0:
        if metric != INFINITY:
            raise Ignored("wildcard-finite")
        if body[2] or body[3]:
            raise Ignored("wildcard-prefix")
        source_of("wildcard", body[10:])
        return ALL, None
    if encoding not in state.encodings:
        if flags & 0x40:
            raise Refused(f"router-id flag in an unread address encoding at {at}")
        raise Ignored("unknown-encoding")
    family, hop_family = state.encodings[encoding]
    prefix, octets = formed(state, body)
    key = family, prefix, source_of(family, octets)
    if metric == INFINITY:
        return key, None
    router_id = router_id_of(family, prefix) if flags & 0x40 else state.router_id
    if router_id is None:
        raise Ignored("no-router-id")
    if router_id in (bytes(8), b"\xff" * 8):
        raise Ignored("reserved-router-id")
    if hop_family not in state.hops:
        raise Ignored("no-next-hop")
    return key, (state.hops[hop_family], router_id.hex(), number(body[6:8]), metric)


def said(state, at, kind, body):
    if kind == 6:
        if len(body) < 10:
            raise Ignored("short")
        source_of("elsewhere", body[10:])
    if kind == 7:
        source_of("elsewhere", next_hop_in(body)[2])
    return update_says(state, at, body) if kind == 8 else None


# ---- what is held after it: RFC 8966, 2.8, 3.5.4, 4.6.9


def rows_after(rows, event, hold):
    if event is None:
        return rows
    key, route = event
    if route:
        return {**rows, key: route}
    gone = dict.fromkeys(rows if key == ALL else [key], "unreachable")
    if hold:
        return {**rows, **gone}
    return {other: held for other, held in rows.items() if other not in gone}


# ---- dumps: the rows, the TLVs, as (offset, type), and those that are ignored, as (offset, reason)
Table = collections.namedtuple("Table", "rows tlvs ignored")


def rows_for(state, kind, body):
    """Of a TLV, whose rows in the order of the checks it goes by."""
    if kind != 8 or len(body) < 10 or body[0] and body[0] not in state.encodings:
        return {6: "Router-Id", 7: "Next Hop", 8: "Update"}.get(kind, "another")
    return f"Update, AE {body[0]}"


def table_of(dump, how, met):
    table = Table({}, [], [])
    for packet in packets_of(dump):
        state = state_at_start(how)
        for at, kind, body in packet:
            try:
                event = said(state, at, kind, body)
                answer = ("announces" if event[1] else "retracts") if event else "nothing"
            except Ignored as reason:
                event, answer = None, str(reason)
                table.ignored.append((at, answer))
            met[f"{rows_for(state, kind, body)}: {answer}"] += 1
            table.tlvs.append((at, kind))
            table = table._replace(rows=rows_after(table.rows, event, how.hold))
            if len(table.rows) > how.routes:
                raise Refused(f"too many routes at {at}")
            state = state_after(state, kind, body)
    return table


def read(dump, how, met):
    """The table of a dump, or its fault. Octets past the limit are never looked at."""
    try:
        table = table_of(dump[: how.octets], how, met)
    except Refused as fault:
        if len(dump) <= how.octets or not str(fault).startswith("truncated"):
            raise
    if len(dump) > how.octets:
        raise Refused("dump too long")
    return table


# ---- texts


def text_of_held(held):
    return held if held == "unreachable" else "via {} id {} seqno {} metric {}".format(*held)


def json_of_held(held):
    names = "next_hop", "router_id", "seqno", "metric"
    return {held: True} if held == "unreachable" else dict(zip(names, held))


def counts_of(table):
    """For each reason that occurred, in their order, how often and where first."""
    for reason in REASONS:
        places = [at for at, other in table.ignored if other == reason]
        if places:
            yield reason, len(places), places[0]


def lines_of(table, as_json):
    """What `show` writes."""
    rows = [
        (text_of_prefix(family, dst), text_of_prefix(family, src), held)
        for (family, dst, src), held in sorted(table.rows.items())
    ]
    if not as_json:
        lines = [f"{dst} from {src} {text_of_held(held)}" for dst, src, held in rows]
        lines.append(f"tlvs {len(table.tlvs)}")
        return lines + ["ignored {} {} first {}".format(*counted) for counted in counts_of(table)]
    objects = [
        {"destination": dst, "source": src, "answer": json_of_held(held)} for dst, src, held in rows
    ]
    counts = [dict(zip(("reason", "count", "first"), counted)) for counted in counts_of(table)]
    objects.append({"tlvs": len(table.tlvs), "ignored": counts})
    if not has_updates(table):
        objects.append({"note": "no-updates"})
    return [json.dumps(each, separators=(",", ":")) for each in objects]


def has_updates(table):
    return any(kind == 8 for _, kind in table.tlvs)


def notes_of(table, command):
    notes = []
    if table.ignored and command != "show":
        counts = ", ".join("{} {} first {}".format(*counted) for counted in counts_of(table))
        number = f"{len(table.ignored)} of {len(table.tlvs)}"
        notes.append(f"note: {number} TLVs ignored: {counts}")
    return notes if has_updates(table) else [*notes, "note: no Updates"]


# ---- random dumps. Of what is drawn most is sound, so that what comes after it is met, too. What
# the Updates of one dump are made of: encodings, flags, lengths of IPv4 prefixes, which are four
# times as long in IPv6, and the octets that addresses begin with.
Taste = collections.namedtuple("Taste", "encodings flags lengths stems")


def mostly(rng, odds, usual, *others):
    return usual if rng.randrange(odds) else rng.choice(others)


def octets_of(rng, count):
    return bytes(rng.choices(range(256), k=count))


def random_sub_tlvs(rng, taste, width):
    octets = b""
    for _ in range(rng.choice((0, 0, 0, 1, 1, 2))):
        kind = rng.choice((0, 1, 127, *([128] * 5 if width else ())))
        kind, body = mostly(rng, 20, kind, 128, 129, 255), octets_of(rng, rng.randrange(4))
        if kind == 128:
            length = mostly(rng, 20, rng.choice(taste.lengths) * width // 32, 0, width + 1, 255)
            body = bytes((length,)) + rng.choice(taste.stems)[: octets_for(length)]
            body = mostly(rng, 20, body, b"", body[:-1], body + b"\7")
        octets += bytes((kind, len(body))) + body if kind else b"\0"
    return mostly(rng, 20, octets, octets[:-1], octets + b"\1", octets + b"\x80\5\0")


def random_update(rng, taste):
    encoding = rng.choice(taste.encodings)
    width = 32 if encoding in (1, 4) else 128
    length = mostly(rng, 20, rng.choice(taste.lengths) * width // 32, width + 1, 255)
    omitted = rng.choice((0, 0, 0, 1, 2)) if taste.flags[-1] else 0
    omitted = mostly(rng, 20, omitted, 1, width // 8, width // 8 + 1)
    metric = rng.choice((0, 1, 256, 65_534, INFINITY))
    field = rng.choice(taste.stems)[omitted : octets_for(length)]
    if encoding == 0:
        length, omitted = rng.choice(((0, 0), (0, 0), (0, 0), (length, 0), (0, omitted)))
        width, metric, field = 0, mostly(rng, 20, INFINITY, metric), b""
    fixed = bytes((encoding, rng.choice(taste.flags), length, omitted)) + octets_of(rng, 2)
    fixed += bytes((0, rng.randrange(3))) + metric.to_bytes(2, "big")
    return fixed + field + random_sub_tlvs(rng, taste, width)


def random_body(rng, taste, kind):
    if kind == 6:
        router_id = mostly(rng, 20, rng.choice(taste.stems)[:8], bytes(8), b"\xff" * 8)
        return bytes(2) + router_id + random_sub_tlvs(rng, taste, 0)
    if kind == 7:
        encoding = mostly(rng, 20, rng.choice((1, 2, 3)), 0, 4, 5, 255)
        address = rng.choice(taste.stems)[: {1: 4, 2: 16}.get(encoding, 8)]
        return bytes((encoding, 0)) + address + random_sub_tlvs(rng, taste, 0)
    return random_update(rng, taste) if kind == 8 else octets_of(rng, rng.randrange(6))


def random_tlv(rng, taste, kind):
    body = random_body(rng, taste, kind)
    cuts = (body[:end] for end in (1, 9, 11, 12, rng.randrange(len(body) + 1)))
    body = mostly(rng, 20, body, *cuts)
    return bytes((kind, len(body))) + body if kind else b"\0"


def random_packet(rng, taste):
    kinds = [*rng.choice((*[(6, 7, 7)] * 5, (6, 7), (6,), (7,), ()))]
    kinds += [rng.choice((0, 1, 4, 6, 7, 9, 11, 255, *[8] * 16)) for _ in range(rng.randrange(24))]
    body = b"".join(random_tlv(rng, taste, kind) for kind in kinds)
    body = mostly(rng, 30, body, body[:-1], body + b"\5", body + b"\x08\xff\0")
    length = mostly(rng, 60, len(body), len(body) + 1, max(0, len(body) - 1))
    header = bytes((mostly(rng, 60, 42, 43), mostly(rng, 60, 2, 3))) + length.to_bytes(2, "big")
    return header + body + mostly(rng, 60, b"", octets_of(rng, 5))


def random_dump(rng):
    encodings = (1,), (2,), (4,), (1, 2), (1, 4), (0, 1, 2, 4), (0, 1, 2, 3, 4, 5, 255)
    flags = (0,), (0x80,), (0, 0x80), (0, 0x80, 0xBF), (0, 0x40, 0x80, 0xC0)
    lengths = [rng.choice((0, 1, 8, 9, 15, 16, 24, 31, 32)) for _ in range(3)]
    stems = [octets_of(rng, 16) for _ in range(2)]
    stems.append(stems[0][: rng.randrange(4)] + octets_of(rng, 16))
    taste = Taste(rng.choice(encodings), rng.choice(flags), lengths, stems)
    dump = b"".join(random_packet(rng, taste) for _ in range(rng.choice((1, 1, 2, 3))))
    return mostly(rng, 20, dump, dump[: rng.randrange(len(dump) + 1)])


# ---- runs: words, and what they must write and answer


def random_limits(rng):
    """Words, how many routes there may be, and how many octets: few, so there are few pairs."""
    routes = rng.choice((1, 2, 3, 5, 8, 300, 300, 300))
    octets = 83 * routes + rng.choice((0, rng.randrange(100), 10_000))
    return ["--max-routes", str(routes), "--max-octets", str(octets)], routes, octets


def not_whole(table):
    """Why a table is refused with --strict."""
    if table.ignored:
        return "ignored TLV at {}: {}".format(*table.ignored[0])
    return "" if has_updates(table) else "no Updates"


def expected(dump, how, words, met):
    """The lines of a run, or of `normalise` the pairs, the status, and what is told."""
    try:
        table = read(dump, how, met)
        if "--strict" in words and not_whole(table):
            raise Refused(not_whole(table))
        if words[0] == "normalise":
            first = itertools.islice(canonical_pairs(table.rows), how.routes + 1)
            pairs = {tuple(key): held for *key, held in first}
            if len(pairs) > how.routes:
                raise Refused("too many pairs")
            return pairs, 0, notes_of(table, "normalise")
    except Refused as fault:
        met[str(fault).split(" at ")[0]] += 1
        return b"", 3, [str(fault)]
    return lines_of(table, "--json" in words), 0, notes_of(table, "show")


def written(octets, how, words):
    """What a run wrote: the lines of `show`; of `normalise` the rows of what it wrote, which is
    read with another sender."""
    if words[0] == "show":
        return octets.decode().splitlines()
    how = how._replace(family=10 - how.family, octets=len(octets))
    try:
        table = read(octets, how, collections.Counter())
    except Refused as fault:
        return str(fault)
    return table.ignored or table.rows


# What must be met: the rows of the order of the checks, and the faults.
OF_SUB_TLVS = "bad-sub unknown-mandatory"
OF_AN_ENCODING = (
    f"bad-plen bad-omitted no-default short-prefix {OF_SUB_TLVS} two-sources bad-source retracts"
    " no-router-id reserved-router-id no-next-hop announces"
)
ROWS = {
    "Router-Id": f"short {OF_SUB_TLVS} nothing",
    "Next Hop": f"short unknown-encoding short-prefix {OF_SUB_TLVS} nothing",
    "Update": "short unknown-encoding",
    "Update, AE 0": f"wildcard-finite wildcard-prefix {OF_SUB_TLVS} wildcard-source retracts",
    **dict.fromkeys(("Update, AE 1", "Update, AE 2", "Update, AE 4"), OF_AN_ENCODING),
    "another": "nothing",
}
WANTED = {f"{name}: {answer}" for name, answers in ROWS.items() for answer in answers.split()} | {
    "truncated packet",
    "bad magic",
    "bad version",
    "TLV past the end of its packet",
    "router-id flag in an unread address encoding",
    "too many routes",
    "dump too long",
    "too many pairs",
    "ignored TLV",
    "no Updates",
}


COMMANDS = ["show"], ["show"], ["show", "--json"], ["normalise"], ["normalise", "--strict"]


def runs_over(rng):
    """Runs with a sender of each family, with and without --v4-via-v6: the words, and how they have
    a dump read."""
    limits, *numbers = random_limits(rng)
    for family, via_v6 in itertools.product(SENDERS, (False, True)):
        how = How(family, via_v6, rng.choice((False, True)), *numbers)
        words = [*rng.choice(COMMANDS), "--from", SENDERS[family], *limits]
        yield words + ["--v4-via-v6"] * via_v6 + ["--hold"] * how.hold, how


def difference(program, dump, words, how, met):
    """How a run differs from the definitions, if it does."""
    run = subprocess.run([program, *words], input=dump, capture_output=True)
    told = [line for line in run.stderr.decode().splitlines() if not line.startswith("hint: ")]
    lines = run.stdout if run.returncode else written(run.stdout, how, words)
    given, wanted = (lines, run.returncode, told), expected(dump, how, words, met)
    return "" if given == wanted else f"{words}: {given} in place of {wanted}"


def check(program, seed, turn):
    """The commands of the runs over a dump, each with how it differs from the definitions, if it
    does; and what was met."""
    rng = random.Random(f"{seed} {turn}")
    dump, met, found = random_dump(rng), collections.Counter(), []
    for words, how in runs_over(rng):
        problem = difference(program, dump, words, how, met)
        found.append((words[0], problem and f"dump {turn}, {dump.hex()}, {problem}"))
    return found, met


def checked(program, dumps, seed):
    """For each run over so many dumps its command, and how what it did differs from the
    definitions, if it does; and for each row and fault that it was met."""
    met = collections.Counter()
    with concurrent.futures.ProcessPoolExecutor(os.cpu_count()) as pool:
        for found, more in pool.map(
            functools.partial(check, program, seed), range(dumps), chunksize=16
        ):
            met += more
            yield from found
    for name in sorted(WANTED | {*met}):
        is_right = met[name] and name in WANTED
        yield name, "" if is_right else f"{name}: met {met[name]} times"


def main():
    parser = argparse.ArgumentParser(
        description=__doc__, formatter_class=argparse.RawDescriptionHelpFormatter
    )
    parser.add_argument("program", type=pathlib.Path)
    parser.add_argument("--dumps", type=int, default=2_000)
    parser.add_argument("--seed", type=int, default=1)
    options = parser.parse_args()
    checks, wrong = 0, 0
    for _, problem in checked(options.program.resolve(), options.dumps, options.seed):
        checks += 1
        if problem:
            wrong += 1
            print(problem)
    print(f"{wrong} of {checks} checks differ from the definitions")
    return 1 if wrong else 0


if __name__ == "__main__":
    sys.exit(main())
