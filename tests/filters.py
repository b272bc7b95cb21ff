"""The filters that documents give tcpdump: each keeps, of captures of the repository and of made
ones, every datagram that the program reads, leaves out or refuses.

Where there is no tcpdump they are only found.
"""

import functools
import re
import shutil
import subprocess

import capture_files as made
import capture_reader as reader
from checks import DRILL, ROUTERS, TOP
from extract import NOISE, OVER_IPV4, SENDER, dump_of, linked, noise, records_of, tagged

DOCUMENTS = "*.md", "docs/*.md", "docs/*.1", "examples/**/*.md", "crates/babel_dump/src/*.rt"
QUOTED = re.compile(r"(['`])([a-z0-9()\s]*\budp port 6696\b[a-z0-9()\[\]:&!=\s]*)\1")
ROFF = {"\\(aq": "'", "\\-": "-"}
SECONDS = 60

# Filters that lose datagrams, so that the captures have to tell.
LOSE = (
    "udp port 6696",
    "udp port 6696 or ip6 proto 44",
    "udp port 6696 or ip6 proto 44 or (vlan and udp port 6696)",
    "udp port 6696 or ip6 proto 44 or (vlan and (udp port 6696 or ip6 proto 44))",
    "udp port 6696 or (vlan and udp port 6696) or (vlan and vlan and udp port 6696)",
)

NO_TAG = ()
TAGS = (
    (0x8100,),
    (0x88A8,),
    ((0x8100, 0),),
    ((0x88A8, 10), (0x8100, 20)),
    (0x8100, 0x8100),
)


def filters_in(file):
    """The filters that a document has between quotes, each on one line."""
    text = file.read_text()
    for escaped, plain in ROFF.items():
        text = text.replace(escaped, plain)
    return [" ".join(quoted.split()) for _, quoted in QUOTED.findall(text)]


def filters():
    """Each filter of a document, with the document's name."""
    files = sorted({file for pattern in DOCUMENTS for file in TOP.glob(pattern)})
    return [(file.relative_to(TOP), found) for file in files for found in filters_in(file)]


def fragments_of(packet, frame_of, over_ipv4):
    """A packet of Babel in two fragments, over IPv6 and over IPv4."""
    whole = made.udp(packet)
    cut = len(whole) // 2 // 8 * 8
    parts = (whole[:cut], 0, True), (whole[cut:], cut // 8, False)
    for part, offset, more in parts:
        yield frame_of(made.ip(SENDER, part, headers=[made.fragment_header(offset, more)]))
        if over_ipv4:
            yield frame_of(made.ip(OVER_IPV4, part, fragment=more * 0x2000 + offset))


def in_frames(frame_of, over_ipv4):
    """The records of a dump over IPv6 and over IPv4, whole and in fragments."""
    dump = dump_of()
    yield from records_of(dump, SENDER, frame_of)
    yield from records_of(dump, OVER_IPV4, frame_of)
    for packet in made.packets_of(dump)[:9]:
        yield from map(made.Record, fragments_of(packet, frame_of, over_ipv4))


def captures(over_ipv4):
    """What each capture has, whether its frames may be tagged, and the capture; with fragments over
    IPv4, or without."""
    framed = functools.partial(in_frames, over_ipv4=over_ipv4)
    for file in ROUTERS / "babeld-basic-a.pcap", DRILL / "drill.pcap":
        yield file.name, False, file.read_bytes()
    yield "Ethernet", False, made.pcap(list(framed(made.ethernet)))
    yield "other datagrams", False, made.pcap(list(map(noise, NOISE)))
    yield "cooked", False, made.pcap(list(framed(made.cooked)), 113)
    yield "cooked, version 2", False, made.pcap(list(framed(linked(3))), 276)
    yield "raw IP", False, made.pcap(list(framed(lambda packet: packet)), 101)
    null = functools.partial(made.after_family, ipv6=30)
    yield "null", False, made.pcap(list(framed(null)), 0)
    for tags in TAGS:
        yield f"the tags {tags}", True, made.pcap(list(framed(tagged(*tags))))
    in_turn = [list(framed(tagged(*tags))) for tags in (NO_TAG, *TAGS)]
    mixed = [record for records in zip(*in_turn) for record in records]
    yield "frames with and without tags", True, made.pcap(mixed)


def is_ethernet(capture):
    return capture[20:24] in (made.number(1, 4, order) for order in ("little", "big"))


def is_for(found, may_have_tags, capture):
    """A filter that asks for no tags is for links without them, and one that does for Ethernet: of
    other links tcpdump knows no tags."""
    return is_ethernet(capture) if "vlan" in found else not may_have_tags


def kept(found, capture):
    """What a filter keeps of a capture."""
    words = ["tcpdump", "-r", "-", "-w", "-", found]
    how = {"capture_output": True, "timeout": SECONDS}
    run = subprocess.run(words, input=capture, **how)
    if run.returncode:
        raise ValueError(run.stderr.decode(errors="replace"))
    return run.stdout


def datagrams(capture):
    """The packets of each sender at each place, and how many datagrams are left out, and why."""
    found = reader.find(capture, reader.USUAL_OCTETS, reader.Wanted(), False)
    left_out = {reason: len(numbers) for reason, numbers in found.left_out.items()}
    return found.packets, left_out


def lost(found, capture):
    """What a filter loses of a capture, in words, or nothing."""
    try:
        before, after = datagrams(capture), datagrams(kept(found, capture))
    except ValueError as error:
        return str(error)
    return "" if before == after else f"of {before[1]} it keeps {after[1]}, or loses packets"


def check_filter(tally, file, found, over):
    """A filter that asks for later fragments of IPv4 is for them."""
    for what, may_have_tags, capture in over["ip[6:2]" in found]:
        if is_for(found, may_have_tags, capture):
            tally.check(f"{file}: '{found}' over {what}", lost(found, capture))


def check(tally, _long):
    given = filters()
    for name in "README.md", "docs/babel-dump.1":
        told = "" if any(str(file) == name for file, _ in given) else "no filter found"
        tally.check(f"{name} has a filter", told)
    if shutil.which("tcpdump") is None:
        print("filters: there is no command tcpdump on the PATH; they are not tried", flush=True)
        return
    over = {over_ipv4: list(captures(over_ipv4)) for over_ipv4 in (False, True)}
    for file, found in given:
        check_filter(tally, file, found, over)
    for found in LOSE:
        is_told = any(lost(found, capture) for _, _, capture in over[True] if is_ethernet(capture))
        tally.check(f"'{found}' loses datagrams", "" if is_told else "no capture tells")
