#!/usr/bin/env python3
"""Runs a program over small random tables, and compares what it writes with what a slow program has
from the definitions.

    definition.py PROGRAM [--plain] [--all] [--tiny] [--tables N] [--seed N]

Each table has a few routes of both families, with and without source prefixes, some retracted, in
any order; half of them have prefixes within the first four bits alone, the others, unless it is
said that all are tiny, prefixes of any length that share long beginnings, which may have 100,000
pairs; half of them have IPv4 routes with IPv6 next hops too, and are read with `--v4-via-v6`.
`pairs`, with and without `--count` and `--hold`, `lookup`, and
`compare` with another table, which mostly differs in a few Updates, must write what the definitions
say and end with the status of that; and, unless it is the plain program, `pairs` and `compare` with
`--ignore metric`. With `--all` so must `compare --all`, with and without `--count`, `--hold` and,
unless it is the plain program, `--json` and `--ignore metric`. Exits 1 where they do not. The same
seed makes the same tables.
"""

import argparse
import concurrent.futures
import functools
import ipaddress
import json
import os
import pathlib
import random
import struct
import subprocess
import sys
import tempfile

WIDTH = {4: 32, 6: 128}
INFINITY = 0xFFFF
ROUTER_ID = bytes.fromhex("060a0000 02e0905949f30003")
NEXT_HOP = bytes.fromhex("070a0300 0000000000000001")
WILDCARD = bytes.fromhex("080a0000 0000 0640 0001 ffff")
FROM = ["--from", "192.0.2.1"]
ANY = (0, 0)
# The next hop in each address encoding.
VIA = {1: "192.0.2.1", 2: "fe80:0:0:0:0:0:0:1", 4: "fe80:0:0:0:0:0:0:1"}
# What the program, and not the plain one, says of dumps that are made of no Updates.
NO_UPDATES = {
    "note: no Updates",
    "note: other: no Updates",
    '{"note":"no-updates"}',
    '{"note":"no-updates","other":true}',
}


# ---- random Updates: (family, destination, source, metric, encoding), or None for a retraction of
# all; a prefix is (bits, length)


def short_prefix(rng, width):
    """One within the first bits, so that many lie side by side."""
    length = rng.randrange(rng.choice((2, 3, 4, 5)))
    return rng.randrange(1 << length) << width - length, length


def long_prefix(rng, width, stems):
    """One of any length that begins as others do."""
    length = rng.choice((0, 1, width // 2, width - 1, width, rng.randrange(width + 1)))
    bits = rng.choice(stems) ^ rng.choice(
        (0, 1 << rng.randrange(width), 1 << width - length if length else 0)
    )
    return bits >> width - length << width - length, length


def sibling(prefix, width):
    bits, length = prefix
    return (bits ^ 1 << width - length, length) if length else prefix


def random_updates(rng, tiny, via_v6):
    """Few sources and few values, so that functions of the source repeat."""
    updates = []
    for family, width in WIDTH.items():
        stems = [rng.getrandbits(width) for _ in range(2)]
        prefix = rng.choice(
            (lambda: short_prefix(rng, width), lambda: long_prefix(rng, width, stems))
        )
        if tiny:
            prefix = functools.partial(short_prefix, rng, width)
        sources = [ANY]
        for _ in range(rng.randrange(3)):
            source = prefix()
            sources += [source, sibling(source, width)]
        for _ in range(rng.randrange(7 if prefix()[1] > 4 else 16)):
            metric = rng.choice((256, 256, 256, 257, 257, INFINITY))
            encoding = 2 if family == 6 else rng.choice((1, 4)) if via_v6 else 1
            updates.append((family, prefix(), rng.choice(sources), metric, encoding))
    rng.shuffle(updates)
    if rng.randrange(8) == 0:
        updates.insert(rng.randrange(len(updates) + 1), None)
    return updates


def changed(rng, updates):
    """The Updates in another order of their keys, with up to one left out and up to one of another
    metric."""
    updates = list(updates)
    if updates and rng.randrange(2):
        updates.pop(rng.randrange(len(updates)))
    place = rng.randrange(len(updates)) if updates else None
    if place is not None and updates[place] is not None and rng.randrange(2):
        updates[place] = (*updates[place][:3], 259, updates[place][4])
    return updates


def field(family, prefix):
    bits, length = prefix
    return bits.to_bytes(WIDTH[family] // 8, "big")[: (length + 7) // 8]


def dump_of(updates):
    body = ROUTER_ID + NEXT_HOP
    for update in updates:
        if update is None:
            body += WILDCARD
            continue
        family, dst, src, metric, encoding = update
        source = field(family, src)
        sub = bytes((128, 1 + len(source), src[1])) + source if src[1] else b""
        fixed = struct.pack(">BBBBHHH", encoding, 0, dst[1], 0, 1_600, 1, metric)
        tlv = fixed + field(family, dst) + sub
        body += bytes((8, len(tlv))) + tlv
    return struct.pack(">BBH", 42, 2, len(body)) + body


# ---- the definitions


def table_of(updates, hold):
    """What stands for each key: its last Update decides, and after it a retraction of all."""
    table = {}
    for place, update in enumerate(updates):
        if update is None:
            continue
        family, dst, src, metric, encoding = update
        later = updates[place + 1 :]
        if any(other is not None and other[:3] == update[:3] for other in later):
            continue
        reachable = metric != INFINITY and None not in later
        if reachable or hold:
            table[family, dst, src] = (encoding, metric) if reachable else "unreachable"
    return table


def matches(prefix, addr, width):
    bits, length = prefix
    return bits >> width - length == addr >> width - length


def answer(table, family, dst, src):
    width = WIDTH[family]
    found = [
        (to[1], of[1], value)
        for (own, to, of), value in table.items()
        if own == family and matches(to, dst, width) and matches(of, src, width)
    ]
    return max(found, key=lambda row: row[:2])[2] if found else None


def places(prefixes, width):
    """The addresses from which an answer may be another one: the first of each prefix, and the one
    after its last."""
    ends = (bits + (1 << width - length) for bits, length in prefixes)
    return sorted({0, *(bits for bits, _ in prefixes), *(end for end in ends if end < 1 << width)})


def largest_blocks(width, places, answer_at):
    """The blocks whose addresses all have one answer, while those of the block that is one bit
    shorter have not."""
    blocks, open_blocks = [], [ANY]
    while open_blocks:
        bits, length = open_blocks.pop()
        end = bits + (1 << width - length)
        answers = {
            answer_at(place)
            for place in [bits, *(place for place in places if bits <= place < end)]
        }
        if len(answers) == 1:
            blocks.append(((bits, length), answers.pop()))
        else:
            half = 1 << width - length - 1
            open_blocks += [(bits + half, length + 1), (bits, length + 1)]
    return blocks


def boxes(keys, answer_at):
    """For each destination block with one function of the source, the source blocks with one
    answer, if they have one.

    The answer may be another one only where a prefix of the keys begins or has ended."""
    for family, width in WIDTH.items():
        own = [key for key in keys if key[0] == family]
        destinations, sources = (places([key[part] for key in own], width) for part in (1, 2))
        at = functools.lru_cache(None)(functools.partial(answer_at, family))
        function = functools.lru_cache(None)(lambda dst: tuple(at(dst, src) for src in sources))
        for dst, _ in largest_blocks(width, destinations, function):
            for src, value in largest_blocks(width, sources, lambda place: at(dst[0], place)):
                if value is not None:
                    yield family, dst, src, value


def canonical_pairs(table):
    return boxes(table, functools.partial(answer, table))


def without_metrics(table):
    ignored = lambda value: value if value == "unreachable" else (value[0], "-")
    return {key: ignored(value) for key, value in table.items()}


def differences(left, right):
    """The boxes of the function that is none where both answer the same, and else both answers."""

    def told_apart(*place):
        answers = answer(left, *place), answer(right, *place)
        return None if answers[0] == answers[1] else answers

    return boxes([*left, *right], told_apart)


def difference(left, right):
    for family, width in WIDTH.items():
        rows = [key for key in [*left, *right] if key[0] == family]
        for dst in places([key[1] for key in rows], width):
            for src in places([key[2] for key in rows], width):
                answers = [answer(table, family, dst, src) for table in (left, right)]
                if answers[0] != answers[1]:
                    return family, dst, src, *answers
    return None


# ---- texts


def text_of_address(family, bits):
    if family == 4:
        return str(ipaddress.IPv4Address(bits))
    return ":".join(f"{bits >> 16 * group & 0xFFFF:x}" for group in reversed(range(8)))


def text_of_prefix(family, prefix):
    return f"{text_of_address(family, prefix[0])}/{prefix[1]}"


def text_of(value):
    if value is None or value == "unreachable":
        return value or "none"
    encoding, metric = value
    return f"via {VIA[encoding]} id {ROUTER_ID[4:].hex()} seqno 1 metric {metric}"


def json_of(value):
    if value is None or value == "unreachable":
        return value and {value: True}
    encoding, metric = value
    metric = None if metric == "-" else metric
    via = VIA[encoding]
    return {"next_hop": via, "router_id": ROUTER_ID[4:].hex(), "seqno": 1, "metric": metric}


def text_of_pairs(table):
    return [
        f"{text_of_prefix(family, dst)} from {text_of_prefix(family, src)} {text_of(value)}"
        for family, dst, src, value in canonical_pairs(table)
    ]


def three_lines(dst, src, left, right):
    return [
        f"differ {dst} from {src}",
        f"left {text_of(left)}",
        f"right {text_of(right)}",
    ]


def text_of_difference(found):
    if found is None:
        return ["same"]
    family, dst, src, left, right = found
    return three_lines(text_of_address(family, dst), text_of_address(family, src), left, right)


def text_of_differences(found):
    lines = [
        three_lines(text_of_prefix(family, dst), text_of_prefix(family, src), *answers)
        for family, dst, src, answers in found
    ]
    return sum(lines, []) or ["same"]


def json_of_differences(found):
    objects = [
        {
            "same": False,
            "destination": text_of_prefix(family, dst),
            "source": text_of_prefix(family, src),
            "left": json_of(left),
            "right": json_of(right),
        }
        for family, dst, src, (left, right) in found
    ]
    return [json.dumps(each, separators=(",", ":")) for each in objects or [{"same": True}]]


# ---- runs: words, the lines that they must give, the status, and the note, if there is one


def pair_runs(table, words, dump):
    pairs = text_of_pairs(table)
    yield ["pairs", *words, dump], pairs, 0, ""
    yield ["pairs", "--count", *words, dump], [f"rows {len(table)}", f"pairs {len(pairs)}"], 0, ""


def lookup_run(rng, table, words, dump):
    family = rng.choice((4, 6))
    dst, src = (
        rng.choice([key[part][0] for key in table if key[0] == family] or [0]) for part in (1, 2)
    )
    asked = ["--to", text_of_address(family, dst), "--src", text_of_address(family, src)]
    found = answer(table, family, dst, src)
    status = 1 if found in (None, "unreachable") else 0
    yield ["lookup", *words, *asked, dump], [text_of(found)], status, ""


def note_of_routes(left, right):
    """What is noted where two tables answer alike: the text, and the lines as JSON."""
    number = sum(left.get(key) != right.get(key) for key in {*left, *right})
    if not number:
        return "", []
    differ = "1 route differs" if number == 1 else f"{number} routes differ"
    return (
        f"note: the same answers, but {differ}; compare --routes shows it",
        [f'{{"note":"routes-differ","routes":{number}}}'],
    )


def compare_runs(left, right, words, dumps, every, plain):
    words = [*words, "--other-from", "192.0.2.1", *dumps]
    least = difference(left, right)
    note, as_json = note_of_routes(left, right) if least is None else ("", [])
    end = (0 if least is None else 1), note
    yield ["compare", *words], text_of_difference(least), *end
    if every:
        found = list(differences(left, right))
        yield ["compare", "--all", *words], text_of_differences(found), *end
        yield ["compare", "--all", "--count", *words], [f"differences {len(found)}"], *end
    if every and not plain:
        yield ["compare", "--all", "--json", *words], json_of_differences(found) + as_json, *end
        count = [f'{{"differences":{len(found)}}}']
        yield ["compare", "--all", "--count", "--json", *words], count + as_json, *end


def expected_runs(rng, updates, others, dumps, read, plain, every):
    for hold in ([], ["--hold"]):
        words = [*hold, *read, *FROM]
        left, right = (table_of(each, bool(hold)) for each in (updates, others))
        yield from pair_runs(left, words, dumps[0])
        yield from lookup_run(rng, left, words, dumps[0])
        yield from compare_runs(left, right, words, dumps, every, plain)
        if not plain:
            words = ["--ignore", "metric", *words]
            left, right = (without_metrics(table) for table in (left, right))
            yield from pair_runs(left, words, dumps[0])
            yield from compare_runs(left, right, words, dumps, every, plain)


def checked(program, folder, tables, seed, plain, every, tiny):
    """For each run over so many tables: its command, how many lines it must write, and how what it
    did differs from the definitions, if it does."""

    def check(turn):
        rng = random.Random(f"{seed} {turn}")
        read = ["--v4-via-v6"] if rng.randrange(2) else []
        updates = random_updates(rng, tiny, read)
        others = changed(rng, updates) if rng.randrange(8) else random_updates(rng, tiny, read)
        dumps = [folder / f"table-{turn}{other}.dump" for other in ("", "-other")]
        for dump, sent in zip(dumps, (updates, others)):
            dump.write_bytes(dump_of(sent))
        found = []
        for words, *wanted, note in expected_runs(rng, updates, others, dumps, read, plain, every):
            run = subprocess.run([program, *words], capture_output=True, text=True)
            lines, told = (
                [line for line in text.splitlines() if line not in NO_UPDATES]
                for text in (run.stdout, run.stderr)
            )
            given = [lines, run.returncode], told
            is_right = given == (wanted, [note] if note and not plain else [])
            problem = f"table {turn}, {words}: {given} in place of {wanted} and {note!r}"
            problem += f": {updates}, {others}"
            found.append((words[0], len(wanted[0]), "" if is_right else problem))
        for dump in dumps:
            dump.unlink()
        return found

    with concurrent.futures.ThreadPoolExecutor(os.cpu_count()) as pool:
        for found in pool.map(check, range(tables)):
            yield from found


def main():
    parser = argparse.ArgumentParser(
        description=__doc__, formatter_class=argparse.RawDescriptionHelpFormatter
    )
    parser.add_argument("program", type=pathlib.Path)
    parser.add_argument(
        "--plain",
        action="store_true",
        help="the program is the plain one, which lacks some options",
    )
    parser.add_argument("--all", action="store_true", help="run compare --all, too")
    tiny = "prefixes within the first four bits alone"
    parser.add_argument("--tiny", action="store_true", help=tiny)
    parser.add_argument("--tables", type=int, default=1_000)
    parser.add_argument("--seed", type=int, default=1)
    options = parser.parse_args()
    runs, wrong, most = 0, 0, 0
    with tempfile.TemporaryDirectory() as folder:
        for _, lines, problem in checked(
            options.program.resolve(),
            pathlib.Path(folder),
            options.tables,
            options.seed,
            options.plain,
            options.all,
            options.tiny,
        ):
            runs, most = runs + 1, max(most, lines)
            if problem:
                wrong += 1
                print(problem)
    print(f"{wrong} of {runs} runs differ from the definitions; the longest text had {most} lines")
    return 1 if wrong else 0


if __name__ == "__main__":
    sys.exit(main())
