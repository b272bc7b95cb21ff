#!/usr/bin/env python3
"""What babel-dump writes with --json, as values with types: copy what you need of it.

    babel-dump show --json --from fe80::1 x.pcap | typed.py

prints each line as Python has it. What is no such line is an error.
"""

import dataclasses
import json
import sys
import typing
from dataclasses import dataclass
from ipaddress import IPv4Address, IPv4Network, IPv6Address, IPv6Network
from typing import Any, Dict, List, Literal, Optional, Union

Address = Union[IPv4Address, IPv6Address]
Prefix = Union[IPv4Network, IPv6Network]


@dataclass(frozen=True)
class Route:
    """Each field is None where --ignore names it. The names are of --names."""

    next_hop: Optional[Address]
    router_id: Optional[str]
    seqno: Optional[int]
    metric: Optional[int]
    next_hop_name: Optional[str] = None
    router_name: Optional[str] = None


@dataclass(frozen=True)
class Unreachable:
    """In place of a route."""

    unreachable: Literal[True]


Held = Union[Route, Unreachable]


@dataclass(frozen=True)
class Row:
    """Of show, and of pairs."""

    destination: Prefix
    source: Prefix
    answer: Held


@dataclass(frozen=True)
class Prefixes:
    """Of a row."""

    destination: Prefix
    source: Prefix


@dataclass(frozen=True)
class Looked:
    """Of lookup; the last with --with-prefix."""

    destination: Address
    source: Address
    answer: Optional[Held]
    route: Optional[Prefixes] = None


@dataclass(frozen=True)
class Counted:
    """A reason; the offset of its first TLV, or the number of its first packet."""

    reason: str
    count: int
    first: int


@dataclass(frozen=True)
class Report:
    """Of show, after its rows."""

    tlvs: int
    ignored: List[Counted]


@dataclass(frozen=True)
class Family:
    routes: int
    source_specific: int
    unreachable: int


@dataclass(frozen=True)
class Summary:
    """Of show --summary; without the last two with --quiet."""

    ipv4: Family
    ipv6: Family
    router_ids: int
    next_hops: int
    tlvs: Optional[int] = None
    ignored: Optional[List[Counted]] = None


@dataclass(frozen=True)
class Counts:
    """Of pairs --count; with --routes of the routes alone."""

    routes: int
    pairs: Optional[int] = None


@dataclass(frozen=True)
class Same:
    """Of compare."""

    same: Literal[True]


@dataclass(frozen=True)
class Differ:
    """Of compare, and of diff; addresses are of compare without --all and --routes."""

    same: Literal[False]
    destination: Union[Address, Prefix]
    source: Union[Address, Prefix]
    left: Optional[Held]
    right: Optional[Held]


@dataclass(frozen=True)
class Alone:
    """Of compare without --from: a sender that only one of two captures has."""

    same: Literal[False]
    only: Literal["left", "right"]


@dataclass(frozen=True)
class Differences:
    """Of compare --count."""

    differences: int


@dataclass(frozen=True)
class Stat:
    """Of diff --stat, after what differs."""

    gone: int
    new: int
    changed: int
    alike: int


@dataclass(frozen=True)
class Origination:
    """Of show --origins: the least metric of all senders, and how many of them announce it."""

    destination: Prefix
    source: Prefix
    router_id: str
    metric: int
    senders: int
    router_name: Optional[str] = None


@dataclass(frozen=True)
class Announced:
    """In one of two captures; the metric is None where --ignore names it."""

    metric: Optional[int]
    senders: int


@dataclass(frozen=True)
class OriginationDiffers:
    """Of diff --origins."""

    destination: Prefix
    source: Prefix
    router_id: str
    left: Optional[Announced]
    right: Optional[Announced]
    router_name: Optional[str] = None


@dataclass(frozen=True)
class FileKey:
    """Of key with --from."""

    key: str
    file: str


@dataclass(frozen=True)
class SenderKey:
    """Of key without --from."""

    key: str
    file: str
    sender: Address
    interface: int
    link: Optional[int]
    vlans: List[int]
    name: Optional[str]


@dataclass(frozen=True)
class Sender:
    """Of senders; the interval is in seconds."""

    sender: Address
    interface: int
    link: Optional[int]
    vlans: List[int]
    name: Optional[str]
    packets: int
    octets: int
    updates: int
    interval: Optional[float]
    first: Optional[str]
    last: Optional[str]
    trailers: int


@dataclass(frozen=True)
class Link:
    """Of links; a cost of 65535 is infinite, and the interval is in seconds."""

    sender: Address
    interface: int
    link: Optional[int]
    vlans: List[int]
    name: Optional[str]
    neighbour: Address
    rxcost: Optional[int]
    back: Optional[int]
    last: str
    hellos: int
    missed: int
    interval: Optional[float]


@dataclass(frozen=True)
class Distance:
    """An entry of the source table of the router that selects."""

    seqno: int
    metric: int


@dataclass(frozen=True)
class Selected:
    """Of select; a cost or a total of 65535 is infinite."""

    sender: Address
    interface: int
    link: Optional[int]
    vlans: List[int]
    name: Optional[str]
    destination: Prefix
    source: Prefix
    answer: Route
    cost: int
    total: int
    state: Literal["own", "unheard", "unreachable", "unfeasible", "selected", "feasible"]
    distance: Optional[Distance]


@dataclass(frozen=True)
class Event:
    """Of events; the name of the sender is of --names."""

    time: str
    sender: Address
    interface: int
    link: Optional[int]
    vlans: List[int]
    name: Optional[str]
    event: Literal["announces", "changes", "retracts", "expires"]
    destination: Prefix
    source: Prefix
    answer: Optional[Route]
    before: Optional[Route]
    sender_name: Optional[str] = None


@dataclass(frozen=True)
class Prefixes:
    """Which route answers."""

    destination: Prefix
    source: Prefix


@dataclass(frozen=True)
class Answered:
    """Of events --to; destination and source are those that are asked for."""

    time: str
    sender: Address
    interface: int
    link: Optional[int]
    vlans: List[int]
    name: Optional[str]
    event: Literal["answers"]
    destination: Address
    source: Address
    route: Optional[Prefixes]
    answer: Optional[Route]
    before: Optional[Route]
    sender_name: Optional[str] = None


@dataclass(frozen=True)
class Requested:
    """Of events --requests; what is not asked for is None."""

    time: str
    sender: Address
    interface: int
    link: Optional[int]
    vlans: List[int]
    name: Optional[str]
    event: Literal["requests"]
    to: Optional[Address]
    destination: Optional[Prefix]
    source: Optional[Prefix]
    router_id: Optional[str]
    seqno: Optional[int]
    sender_name: Optional[str] = None
    router_name: Optional[str] = None


@dataclass(frozen=True)
class Silent:
    """Of events --expiry; `since` is when the last Hello came."""

    time: str
    sender: Address
    interface: int
    link: Optional[int]
    vlans: List[int]
    name: Optional[str]
    event: Literal["silent"]
    since: str
    routes: int
    sender_name: Optional[str] = None


@dataclass(frozen=True)
class Returned:
    """Of events --expiry; the first Hello of who was silent."""

    time: str
    sender: Address
    interface: int
    link: Optional[int]
    vlans: List[int]
    name: Optional[str]
    event: Literal["returns"]
    sender_name: Optional[str] = None


@dataclass(frozen=True)
class Told:
    """Of a sender at its place, without --from: its members come first."""

    origin: Dict[str, Any]
    line: Any


@dataclass(frozen=True)
class Note:
    """Of each command but key; of events, and of a sender that is found, with its place; of several
    captures on a side with the file."""

    note: str
    members: Dict[str, Any]
    origin: Dict[str, Any]
    other: bool
    file: Optional[str] = None


KINDS = Row, Looked, Report, Summary, Counts, Same, Differ, Alone, Differences, Stat
KINDS += Origination, OriginationDiffers
KINDS += FileKey, SenderKey, Sender, Link, Selected, Event, Answered, Requested, Silent, Returned

# What a note has besides.
NOTES = {
    "from": {},
    "ignored": {"tlvs": int, "ignored": List[Counted]},
    "left-out": {"reasons": List[Counted]},
    "cooked-1": {},
    "sections": {"sections": int},
    "trailers": {"packets": int},
    "capture-cut": {"at": int},
    "too-short": {"frames": int},
    "backwards": {"packet": int},
    "short-span": {"span": float, "interval": float},
    "expired": {"routes": int},
    "no-updates": {},
    "no-ihus": {},
    "routes-differ": {"routes": int},
    "source": {"source": Address},
    "not-followed": {"packet": int},
    "feasibility": {"address": Address, "announced": int, "keys": int},
    "ties": {"keys": int},
}
ORIGIN = {
    "sender": Address,
    "interface": int,
    "link": Optional[int],
    "vlans": List[int],
    "name": Optional[str],
}
# What comes first in a line of a sender: its name with --names alone.
LED = {**ORIGIN, "sender_name": Optional[str]}


def members(types, found):
    """Members by their names, each of its type."""
    return {name: value(types[name], found[name]) for name in found}


def value(kind, found):
    """What was found, as a value of this kind."""
    form, kinds = typing.get_origin(kind), typing.get_args(kind)
    if form is Union:
        return first(kinds, found)
    if form is Literal and (type(found), found) in [(type(each), each) for each in kinds]:
        return found
    if form is list and type(found) is list:
        return [value(kinds[0], each) for each in found]
    if dataclasses.is_dataclass(kind) and type(found) is dict:
        return kind(**members(typing.get_type_hints(kind), found))
    if kind in typing.get_args(Address) + typing.get_args(Prefix) and type(found) is str:
        is_prefix = kind in typing.get_args(Prefix)
        return kind(found) if ("/" in found) == is_prefix else refuse(found)
    return found if type(found) is kind else refuse(found)


def refuse(found):
    raise ValueError(f"not expected: {json.dumps(found)}")


def first(kinds, found):
    """What was found, as a value of the first of these kinds that it is of."""
    for kind in kinds:
        try:
            return value(kind, found)
        except (KeyError, TypeError, ValueError):
            pass
    return refuse(found)


def note(found):
    """A note."""
    name, other = found.pop("note"), value(bool, found.pop("other", False))
    file = value(Optional[str], found.pop("file", None))
    names = ORIGIN if "sender" in found else {}
    origin = {each: found.pop(each) for each in names}
    if found.keys() != NOTES[name].keys():
        refuse(found)
    return Note(name, members(NOTES[name], found), members(ORIGIN, origin), other, file)


def line(text):
    """A line, as a value."""
    found = json.loads(text)
    if "note" in found:
        return note(found)
    try:
        return first(KINDS, found)
    except ValueError:
        origin = {each: found.pop(each) for each in LED if each in found or each in ORIGIN}
        return Told(members(LED, origin), first(KINDS, found))


if __name__ == "__main__":
    for each in sys.stdin:
        print(line(each))
