#!/usr/bin/env python3
"""Runs a program over small random captures with times, and compares what it writes with what a
slow program has from the definitions: moments.py, and links.py.

    timed.py PROGRAM [--plain] [--captures N] [--seed N]

Each capture has few senders at few places, who announce and retract few keys again and again, with
Intervals of all kinds, at times that repeat, leap and, in some, run backwards, in each format and
resolution. `show` and `lookup`, in both modes, `events`, of rows and of an answer, and `links` must
write what the definitions say, with the notes on times, unless it is the plain program, which has
no `links`, and end with the status of that. Exits 1 where they do not. The same seed makes the same
captures.
"""

import argparse
import concurrent.futures
import os
import pathlib
import random
import re
import struct
import subprocess
import sys
import tempfile

import links
import moments
from moments import reader

sys.path.append(str(pathlib.Path(__file__).resolve().parent.parent / "tests"))
import capture_files as made  # noqa: E402

SENDERS = "fe80::1", "fe80::2", "192.0.2.1", "10.0.0.9"
# Where a packet is sent to, of each family: mostly a group.
DESTINATIONS = {
    4: (made.GROUP[4], made.GROUP[4], "192.0.2.1", "255.255.255.255"),
    6: (made.GROUP[6], made.GROUP[6], "fe80::1", "fe80::3"),
}
FRAMES = (
    lambda packet: made.ethernet(packet),
    lambda packet: made.ethernet(packet, ((0x8100, 7),)),
    lambda packet: made.ethernet(packet, ((0x8100, 7), (0x8100, 9))),
)
# Of the Updates in a capture; 0 retracts all.
ENCODINGS = (0, 1, 1, 1, 1, 2, 2, 4, 4), (0, 0, 1, 1), (0, 1, 1, 1, 1, 2)
INTERVALS = 0, 1, 1, 2, 100, 100, 400, 1_600, 65_535
FACTORS = "3.5", "1", "0.5", "2", "1000", "0.0000001", "3.1415926"
STEPS = (
    0, 0, 0, 1, 10_000_000, 20_000_000, 500_000_000, 1_000_000_000, 3_500_000_000, 14_000_000_000
)
OFFSETS = None, None, 0, 5, -1, -3_600
POWERS = None, 0, 3, 6, 9, 12, 127, 128, 138, 160, 255
# The notes that moments.py has, of those of a table.
NOTES = re.compile(r"note: (the capture spans|times run backwards|[0-9]+ routes? w)")
# The notes that it has not, of those of events: what TLVs are ignored, or missing.
TLV_NOTES = re.compile(r"note: (.*: )?(ignored TLV|[0-9]+ of [0-9]+ TLVs? ignored|no Updates)")
TLV_OBJECTS = b'{"note":"ignored"', b'{"note":"no-updates"'


# ---- random packets


def prefix(rng, width):
    """One of few, so that keys repeat."""
    length = rng.choice((0, 1, 8, width))
    bits = rng.randrange(2) << width - 1 | rng.randrange(2)
    return bits >> width - length << width - length, length


def update(rng, encodings):
    encoding = rng.choice(encodings) if rng.randrange(30) else 3
    width = 128 if encoding == 2 else 32
    bits, length = prefix(rng, width) if encoding else (0, 0)
    field = bits.to_bytes(width // 8, "big")[: (length + 7) // 8]
    source, sub = prefix(rng, width) if encoding and rng.randrange(4) == 0 else (0, 0), b""
    if source[1]:
        octets = source[0].to_bytes(width // 8, "big")[: (source[1] + 7) // 8]
        sub = bytes((128, 1 + len(octets), source[1])) + octets
    metric = 0xFFFF if encoding == 0 or rng.randrange(5) == 0 else rng.choice((0, 0, 256))
    flags = rng.choice((0, 0, 0, 0x80)) if encoding != 3 else rng.choice((0, 0, 0, 0x40))
    fixed = (encoding, flags, length, 0, rng.choice(INTERVALS), rng.choice((1, 1, 1, 2)), metric)
    body = struct.pack(">BBBBHHH", *fixed) + field + sub
    return bytes((8, len(body))) + body


def tlv(rng, kind, body):
    """A TLV with sub-TLVs, which mostly can be read."""
    body += rng.choice((b"", b"", b"", b"\0", b"\x7f\0", b"\x80\0", b"\1"))
    body = body[: rng.choice((5, len(body), len(body), len(body)))]
    return bytes((kind, len(body))) + body


def hello(rng):
    """A Hello, mostly a multicast one that says when the next one comes, and counts on."""
    flags = rng.choice((0, 0, 0, 0x40, 0x80, 0xC0))
    seqno = rng.choice((rng.randrange(65_536), rng.randrange(20), 65_536 - rng.randrange(1, 9)))
    return tlv(rng, 4, struct.pack(">BBHH", flags, 0, seqno, rng.choice(INTERVALS)))


def ihu(rng):
    """An IHU, for one of few nodes, or for all."""
    encoding = rng.choice((0, 0, 1, 2, 3, 3, 4))
    address = {
        1: rng.choice(("c0000201", "0a000009", "c0000207")),
        2: "fe80" + "0" * 27 + rng.choice("12"),
        3: "0" * 15 + rng.choice("1237"),
    }.get(encoding, "")
    rxcost = rng.choice((0, 96, 256, 65_534, 65_535))
    fixed = struct.pack(">BBHH", encoding, rng.randrange(2), rxcost, rng.choice(INTERVALS))
    return tlv(rng, 5, fixed + bytes.fromhex(address))


def packet(rng, encodings):
    """A packet that mostly says something, and seldom can't be read."""
    body = bytes.fromhex("060a0000 0200000000000001")
    if rng.randrange(4):
        body += bytes.fromhex("070a0300 0000000000000001 07060100 c0000201")
    for _ in range(rng.choice((0, 1, 1, 2, 3, 6))):
        if rng.randrange(12) == 0:
            body += bytes.fromhex("060a0000") + rng.choice((b"\0", b"\2", b"\3")) * 8
        body += hello(rng) if rng.randrange(2) else b""
        body += ihu(rng) if rng.randrange(2) else b""
        body += update(rng, encodings)
    body += hello(rng) if rng.randrange(2) else b""
    body += ihu(rng) if rng.randrange(2) else b""
    if rng.randrange(60) == 0:
        body += b"\4"
    return b"\x2a\2" + len(body).to_bytes(2, "big") + body


# ---- random captures


def frame(rng, senders, encodings):
    sender = rng.choice(senders)
    kind = rng.randrange(20)
    if kind == 0:
        return made.MACS + b"\x08\x06" + bytes(28)
    datagram = made.udp(packet(rng, encodings), source=6_697 if kind == 1 else made.BABEL)
    how = {"length": 9_000} if kind == 2 and ":" in sender else {}
    how["to"] = rng.choice(DESTINATIONS[6 if ":" in sender else 4])
    whole = rng.choice(FRAMES if rng.randrange(2) else FRAMES[:1])(
        made.ip(sender, datagram, **how) if rng.randrange(40) else made.ip(sender, datagram[:12])
    )
    return whole


def records_of(rng):
    """Records whose times repeat, leap, and, in one capture of four, run backwards."""
    senders = rng.sample(SENDERS, rng.choice((1, 1, 2, 3)))
    encodings = rng.choice(ENCODINGS)
    time = rng.choice((0, 999_999_999, 1_795_613_362_057_482_001))
    backwards = rng.randrange(4) == 0
    for _ in range(rng.choice((1, 3, 10, 30))):
        step = rng.choice(STEPS)
        time += -step if backwards and time > step and rng.randrange(4) == 0 else step
        yield made.Record(frame(rng, senders, encodings), rng.randrange(2), time=time)


def capture(rng):
    """A capture in some format, resolution and order, which seldom is cut or has a packet without a
    time."""
    records, order = list(records_of(rng)), rng.choice(("little", "big"))
    if rng.randrange(2):
        for each in records:
            each.interface = 0
        octets = made.pcap(records, 1, order, rng.randrange(2) == 1)
    else:
        octets = made.section(order)
        clocks = [(rng.choice(POWERS), rng.choice(OFFSETS)) for _ in range(2)]
        for place, (power, offset) in enumerate(clocks):
            options = made.option(2, b"eth%d" % place, order) if rng.randrange(2) else b""
            options += made.counted(power, offset, order)
            octets += made.interface(1, order, options=options)
        for each in records:
            power, offset = clocks[each.interface]
            seconds = max(each.time - (offset or 0) * made.SECOND, 0)
            units = made.units_of(seconds, 6 if power is None else power) % 2**64
            octets += made.enhanced(each, order, time=units)
        if rng.randrange(20) == 0:
            octets += made.simple(records[0], order)
    return octets[: -rng.randrange(1, 20)] if rng.randrange(20) == 0 else octets


# ---- runs


def time_word(rng, times, factor):
    """A word for a moment within the capture, or about: mostly one at which something is gone, or
    one just before."""
    start, end = times[0], max(times)
    time = rng.choice((start, end, rng.randint(start, end), rng.randint(start, end) + made.SECOND))
    if rng.randrange(3):
        spans = rng.choice((0, 1, 1, 2)) * rng.choice(INTERVALS[:-1]) * factor
        time = max(rng.choice(times) + spans - rng.choice((0, 0, 1)), start)
    how = rng.randrange(3)
    if how == 0:
        return f"@{time // made.SECOND}.{time % made.SECOND:09}"
    if how == 1:
        return f"+{(time - start) // made.SECOND}.{(time - start) % made.SECOND:09}"
    return reader.time_text(time)


def runs(rng, octets):
    """The words of each run over a capture."""
    found = reader.Found()
    try:
        reader.find(octets, reader.USUAL_OCTETS, reader.Wanted(), True, None, found)
    except reader.Fault:
        pass
    times = [time for _, time in found.records if time is not None] or [0]
    places = [
        (reader.text_of(*sender), reader.place_asked(place)) for place, *sender in found.packets
    ]
    for _ in range(3):
        factor = rng.choice(FACTORS)
        common = ["--accept-cut"] if rng.randrange(4) else []
        common += ["--v4-via-v6"] if rng.randrange(2) else []
        common += ["--expiry", factor] if rng.randrange(5) else []
        word = lambda: time_word(rng, times, moments.factor_of(factor))
        common += ["--since", word()] if rng.randrange(6) == 0 else []
        sender, place = rng.choice(places) if places else ("192.0.2.1", "0")
        at = ["--interface", place] if rng.randrange(8) else []
        for hold in ["--hold"], ["--hold"], []:
            yield ["show", "--from", sender, *at, *hold, *common, "--until", word()]
        common += ["--until", word()] if rng.randrange(2) else []
        hold = ["--hold"] if rng.randrange(2) else []
        pair = ["--to", rng.choice(("0.0.0.1", "128.0.0.1")), "--src", "0.0.0.1"]
        if rng.randrange(2):
            pair = ["--to", rng.choice(("::1", "8000::1")), "--src", "::1"]
        yield ["show", "--from", sender, *at, *hold, *common]
        yield ["lookup", "--from", sender, *at, *hold, *pair, *common]
        common += ["--json"] if rng.randrange(2) else []
        ignored = rng.choice(("seqno", "metric,router-id"))
        common += ["--ignore", ignored] if rng.randrange(3) == 0 else []
        common += ["--max-routes", rng.choice(("1", "3"))] if rng.randrange(10) == 0 else []
        named = rng.choice((["--from", sender, *at], at, [], []))
        yield ["events", *named, *common]
        yield ["events", *pair, *named, *common]
        mostly = ["--expiry", factor] if rng.randrange(3) else []
        at = at if rng.randrange(2) else []
        cut = ["--accept-cut"] if rng.randrange(4) else []
        shown = ["--json"] if rng.randrange(2) else []
        yield ["links", *at, *mostly, *cut, *shown, "--until", word()]
        yield ["links", *at, *mostly, *cut, *shown]


def answered(program, words, octets):
    """What a run answers, but for its hints, of events for the notes on TLVs, and of a table for all
    but rows and the notes on times."""
    done = subprocess.run([program, *words, "-"], input=octets, capture_output=True)
    output, errors = done.stdout, done.stderr.decode().splitlines()
    errors = [reader.without_absence(line) for line in errors if not line.startswith("hint: ")]
    lines = output.splitlines(keepends=True)
    if words[0] == "events":
        output = b"".join(line for line in lines if not line.startswith(TLV_OBJECTS))
        errors = [line for line in errors if not TLV_NOTES.match(line)]
    elif words[0] != "links":
        output = b"".join(
            line for line in lines if not line.startswith((b"tlvs ", b"ignored "))
        )
        errors = [line for line in errors if not line.startswith("note: ") or NOTES.match(line)]
    return reader.Answer(done.returncode, output, tuple(errors))


def wanted_of(words, octets, plain):
    if words[0] == "links":
        return links.answer_of(words[1:], octets)
    # The plain program follows senders of whom a datagram is missed, and names none in faults.
    all_of_them = ["--follows-all"] if plain and words[0] == "events" else []
    answer = moments.answer_of([*words, *all_of_them], octets)
    if plain:
        lines = answer.output.splitlines(keepends=True)
        answer.output = b"".join(line for line in lines if not line.startswith(b'{"note":'))
        answer.errors = tuple(line for line in answer.errors if not line.startswith("note: "))
    return answer


def checked(program, captures, seed, plain):
    """For each run over so many captures: its command, its status, and how what it did differs from
    the definitions, if it does."""

    def check(turn):
        rng = random.Random(f"{seed} {turn}")
        octets = capture(rng)
        found = []
        for words in runs(rng, octets):
            if plain and words[0] == "links":
                continue
            wanted = wanted_of(words, octets, plain)
            # The plain program takes times the wrong way round.
            if plain and wanted.errors == (reader.BACKWARDS,):
                continue
            given = answered(program, words, octets)
            problem = f"capture {turn}, {' '.join(words)}: {given} in place of {wanted}"
            found.append((words[0], wanted.status, "" if given == wanted else problem))
        return found

    with concurrent.futures.ThreadPoolExecutor(os.cpu_count()) as pool:
        for found in pool.map(check, range(captures)):
            yield from found


def main():
    parser = argparse.ArgumentParser(
        description=__doc__, formatter_class=argparse.RawDescriptionHelpFormatter
    )
    parser.add_argument("program", type=pathlib.Path)
    parser.add_argument("--plain", action="store_true", help="the program is the plain one")
    parser.add_argument("--captures", type=int, default=1_000)
    parser.add_argument("--seed", type=int, default=1)
    options = parser.parse_args()
    told, wrong = {}, 0
    for command, status, problem in checked(
        options.program.resolve(), options.captures, options.seed, options.plain
    ):
        told[command, status] = told.get((command, status), 0) + 1
        if problem:
            wrong += 1
            print(problem)
    for (command, status), count in sorted(told.items()):
        print(f"{command}: status {status} in {count} runs")
    print(f"{wrong} of {sum(told.values())} runs differ from the definitions")
    return 1 if wrong else 0


if __name__ == "__main__":
    sys.exit(main())
