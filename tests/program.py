"""The program as a process: rows of the .txt files, and what a shell's words can't bring about."""

import contextlib
import dataclasses
import ipaddress
import itertools
import json
import os
import pathlib
import random
import re
import resource
import shutil
import signal
import subprocess
import tempfile

import capture_files
import extract
import transcript
from checks import DRILL, ROUTERS, TOP, built_program

import agree
import options
import typed

HEADER = bytes((42, 2))
ROUTER_ID = bytes.fromhex("060a0000 0200000000000001")
ROWS = 262_144
OCTETS = 33_554_432
IN_A_PACKET = 2_048
MANY = 1_001
# Room for the program and its libraries, and not for the rows of most-routes.dump.
LITTLE_MEMORY = 8 << 20
SHOW = ["show", "--from", "192.0.2.1"]
ONE_ROUTE = TOP / "examples/one-route.dump"
ONE_ROUTE_SHOWN = (
    b"10.0.0.0/8 from 0.0.0.0/0 via 192.0.2.1 id 0200000000000001 seqno 1 metric 256\ntlvs 2\n"
)
INSTALLED = (
    "man/man1/babel-dump.1",
    "bash-completion/completions/babel-dump",
    "zsh/site-functions/_babel-dump",
    "fish/vendor_completions.d/babel-dump.fish",
)


def packet(body):
    return HEADER + len(body).to_bytes(2, "big") + body


def update(address, length, metric):
    """An Update for an IPv4 prefix: address encoding 1, no flags, interval 1600, seqno 1."""
    octets = address.to_bytes(4, "big")[: (length + 7) // 8]
    return (
        bytes((8, 10 + len(octets), 1, 0, length, 0))
        + bytes.fromhex("06400001")
        + metric.to_bytes(2, "big")
        + octets
    )


def routes(count):
    """So many hosts from 10.0.0.0 on, at the metrics 256 and 512 in turn, so that no two of them
    are one pair."""
    updates = [
        update((10 << 24) + place, 32, 256 if place % 2 == 0 else 512) for place in range(count)
    ]
    starts = range(0, count, IN_A_PACKET)
    return b"".join(
        packet(ROUTER_ID + b"".join(updates[start : start + IN_A_PACKET])) for start in starts
    )


def hosts(tlv_before):
    """A thousand and one hosts from 10.0.0.0 on, each after such a TLV of its own."""
    return packet(
        ROUTER_ID
        + b"".join(tlv_before(place) + update((10 << 24) + place, 32, 256) for place in range(MANY))
    )


def large_dumps():
    """Dumps at the limits of the program, and past them; and such as have many of what others have
    few."""
    yield "most-routes", routes(ROWS)
    yield "too-many-routes", routes(ROWS + 1)
    # The addresses outside 10.0.0.0/8 have the metric 768, which makes more pairs than there are
    # rows.
    yield "too-many-pairs", routes(ROWS - 1) + packet(ROUTER_ID + update(0, 0, 768))
    longest = packet(bytes(65_535)) * (OCTETS // 65_539)
    yield "longest", longest + packet(bytes(OCTETS - len(longest) - 4))
    # The longest of them fills a packet's body, or is one octet too long for it.
    for count in 3, 4:
        updates = [
            update(place << 24, 16 if place <= count else 8, 256 if place % 2 else 512)
            for place in range(1, 78)
        ]
        yield f"body-with-{count}", packet(ROUTER_ID + b"".join(updates))
    # A section of pcapng, and a block of 16 MiB.
    yield "section", bytes.fromhex("0a0d0d0a1c0000004d3c2b1a01000000ffffffffffffffff1c000000")
    length = (1 << 24).to_bytes(4, "little")
    yield "block", bytes.fromhex("05000000") + length + bytes((1 << 24) - 12) + length
    yield "many-router-ids", hosts(
        lambda place: bytes.fromhex("060a0000") + ((2 << 56) + place).to_bytes(8, "big")
    )
    yield "many-next-hops", hosts(
        lambda place: bytes.fromhex("07060100") + ((198 << 24) + place).to_bytes(4, "big")
    )


def run(program, words, stdin=subprocess.DEVNULL, stdout=subprocess.PIPE, **how):
    """The status of a run, and what it writes on standard error."""
    done = subprocess.run(
        [program, *words], stdin=stdin, stdout=stdout, stderr=subprocess.PIPE, **how
    )
    return done.returncode, done.stderr


def expect(tally, what, found, wanted):
    tally.check(what, "" if found == wanted else f"expected {wanted}\nfound {found}")


def check_closed_pipe(program, tally):
    """Nobody reads what is written: it ends in silence, started with the signal of a closed pipe on
    or off."""
    for words, disposition in itertools.product(
        ([*SHOW, ONE_ROUTE], ["events", DRILL / "drill.pcap"], ["--help"], ["show", "--help"]),
        (signal.SIG_DFL, signal.SIG_IGN),
    ):
        reader, writer = os.pipe()
        os.close(reader)
        ready = lambda: signal.signal(signal.SIGPIPE, disposition)
        found = run(program, words, stdout=writer, preexec_fn=ready, restore_signals=False)
        os.close(writer)
        expect(
            tally,
            f"{' '.join(map(str, words))} into a closed pipe, the signal {disposition.name}",
            found,
            (141, b""),
        )


def check_failed_read(program, tally):
    """Standard input gives some octets, and then an error: nothing is there, and it can't wait."""
    reader, writer = os.pipe()
    os.set_blocking(reader, False)
    os.write(writer, ONE_ROUTE.read_bytes()[:20])
    found = run(program, SHOW, stdin=reader)
    os.close(reader)
    os.close(writer)
    text = b"read failed\nhint: Resource temporarily unavailable (os error 11)\n"
    expect(tally, "a read that fails after 20 octets", found, (4, text))


def check_failed_write(program, tally):
    """Standard output takes what a pipe holds, and then fails: what it took is the start of the
    text."""
    words = ["pairs", "--from", agree.SENDERS["babeld-retract"], ROUTERS / "babeld-retract.dump"]
    text = subprocess.run([program, *words], check=True, capture_output=True).stdout
    reader, writer = os.pipe()
    os.set_blocking(writer, False)
    found = run(program, words, stdout=writer)
    os.close(writer)
    with open(reader, "rb") as pipe:
        taken = pipe.read()
    is_start = 0 < len(taken) < len(text) and text.startswith(taken)
    text = b"write failed\nhint: Resource temporarily unavailable (os error 11)\n"
    expect(tally, "a write that fails after what a pipe holds", (*found, is_start), (4, text, True))


def check_full_file(program, tally):
    """A file that may have ten octets takes those of a longer write, and no more: the text is not
    whole, and it says so."""
    words = ["normalise", "--hex", "--from", "192.0.2.1", ONE_ROUTE]

    def ready():
        signal.signal(signal.SIGXFSZ, signal.SIG_IGN)
        resource.setrlimit(resource.RLIMIT_FSIZE, (10, 10))

    with tempfile.TemporaryFile() as output:
        found = run(program, words, stdout=output, preexec_fn=ready, restore_signals=False)
        output.seek(0)
        taken = output.read()
    text = b"write failed\nhint: File too large (os error 27)\n"
    expect(tally, "a file that takes ten octets", (*found, taken), (4, text, b"2a02002106"))


def drained(reader):
    """All that was written to a pipe, or a terminal, whose other end is closed; closes it."""
    text = b""
    # A terminal ends with an error.
    with contextlib.suppress(OSError):
        while piece := os.read(reader, 1 << 16):
            text += piece
    os.close(reader)
    return text


def check_colours(program, tally):
    """Rows are in colour where it is asked for always, or for a terminal and there is one."""
    row = "-10.0.0.0/8 from 0.0.0.0/0 via 192.0.2.1 id 0200000000000001 seqno 1 metric 256"
    heads = f"--- {ONE_ROUTE} 192.0.2.1\n+++ /dev/null 192.0.2.1\n"
    for when, is_terminal in itertools.product((None, "never", "auto", "always"), (False, True)):
        words = ["diff", "--quiet", "--from", "192.0.2.1", ONE_ROUTE, "/dev/null"]
        words += [f"--color={when}"] if when else []
        reader, writer = os.openpty() if is_terminal else os.pipe()
        found = run(program, words, stdout=writer)
        os.close(writer)
        text = drained(reader).decode().replace("\r\n", "\n")
        is_coloured = when == "always" or (when == "auto" and is_terminal)
        wanted = heads + (f"\x1b[31m{row}\x1b[0m\n" if is_coloured else f"{row}\n")
        where = "on a terminal" if is_terminal else "into a pipe"
        expect(tally, f"diff --color {when} {where}", (*found, text), (1, b"", wanted))


def check_little_memory(program, folder, tally):
    """Each command answers that it is out of memory, and writes nothing."""
    dump, sent = folder / "most-routes.dump", ["--from", "192.0.2.1"]
    lookup = ["--to", "10.0.0.1", "--src", "0.0.0.0"]
    ready = lambda: resource.setrlimit(resource.RLIMIT_AS, (LITTLE_MEMORY, LITTLE_MEMORY))
    for words, other in (
        ([*SHOW, dump], b""),
        (["lookup", *sent, *lookup, dump], b""),
        (["normalise", *sent, dump], b""),
        (["pairs", *sent, dump], b""),
        (["pairs", *sent, "--count", dump], b""),
        (["compare", *sent, "--other-from", "192.0.2.1", dump, ONE_ROUTE], b""),
        (["compare", *sent, "--other-from", "192.0.2.1", ONE_ROUTE, dump], b"other: "),
        (["compare", *sent, "--other-from", "192.0.2.1", "--all", dump, ONE_ROUTE], b""),
        (["diff", *sent, dump, ONE_ROUTE], b""),
    ):
        with tempfile.TemporaryFile() as output:
            found = run(program, words, stdout=output, preexec_fn=ready)
            written = output.tell()
        expect(
            tally,
            f"{' '.join(map(str, words))} in little memory",
            (*found, written),
            (5, other + b"out of memory\n", 0),
        )


def help_of(program, *words):
    how = {"check": True, "capture_output": True, "text": True}
    return subprocess.run([program, *words, "--help"], **how).stdout


def check_options(program, tally):
    """The source has the commands and options of help texts; the manual page names no others."""
    names = re.findall(r"^  ([a-z]+)  ", help_of(program), re.MULTILINE)
    expect(tally, "the commands", set(names), {*options.COMMANDS, "help"})
    manual = options.MANUAL.read_text().replace("\\-", "-")
    for command in options.COMMANDS:
        option = r"^  (?:-\w, |    )(--[a-z0-9-]+)(?: <([\w=]+)>(?:\.\.\.)?)?(?=$|  )"
        shown = re.compile(option, re.MULTILINE)
        rows = [row for row in options.rows_of(command) if not row.is_argument]
        wanted = [(f"--{row.id}", row.takes[0] if row.takes else "") for row in rows]
        found = shown.findall(help_of(program, command))
        expect(tally, f"the options of {command}", found, [*wanted, ("--help", "")])
        expect(tally, f"{command} in the manual page", f"\n.B {command}\n" in manual, True)
    named = set(re.findall(r"--[a-z][a-z0-9-]*", manual))
    expect(tally, "the options in the manual page", named, options.FLAGS | {*options.VALUED})
    if shutil.which("groff"):
        words = ["groff", "-ww", "-man", "-Tutf8", options.MANUAL]
        page = subprocess.run(words, capture_output=True)
        expect(tally, "what groff says of the manual page", page.stderr, b"")


# What bash and fish complete, by the line to its end, and what stands there.
COMPLETED = (
    ("babel-dump nor", ["normalise"]),
    ("babel-dump key --ro", ["--routes"]),
    ("babel-dump events --ma", ["--match", "--max-routes"]),
    ("babel-dump show x.pcap --from f", ["fe80::1", "fe80::2"]),
    ("babel-dump compare x.pcap now.pcap --other-from f", ["fe80::1"]),
    ("babel-dump show x.dump --from f", []),
    ("babel-dump pairs --ignore next-hop,s", ["next-hop,seqno"]),
    ("babel-dump diff --color a", ["always", "auto"]),
    ("babel-dump help k", ["key"]),
    ("babel-dump show 'a b.pcap' --from f", ["fe80::1"]),
    ("babel-dump diff x.pcap a\\ b.pcap --other-interface ", ["0:10"]),
    ("babel-dump events links.pcap --interface ", ["0/3", "0/4"]),
)

# How a shell lists what it completes of the line $1.
SHELLS = {
    "bash": """. "$2"; COMP_LINE=$1 COMP_POINT=${#1} COMP_WORDS=(babel-dump); _babel_dump
        printf '%s\\n' "${COMPREPLY[@]}" """,
    "fish": "source $argv[2]; complete -C $argv[1] | string replace -r '\\t.*' ''",
}

# What tells that a shell has found the completions below its folder $1, and what it says then.
BASH_COMPLETION = pathlib.Path("/usr/share/bash-completion/bash_completion")
FOUND = {
    "bash": (
        f". {BASH_COMPLETION}; _completion_loader babel-dump; complete -p babel-dump",
        " _babel_dump ",
    ),
    "zsh": (
        "fpath+=($1/zsh/site-functions); autoload -U compinit; compinit -uD; "
        "print $_comps[babel-dump]",
        "_babel-dump",
    ),
    "fish": ("complete -C 'babel-dump nor'", "normalise"),
}


def check_completions(folder, tally):
    """The shells that are here complete options, words, senders and places."""
    dump = (ROUTERS / "babeld-basic-a.dump").read_bytes()
    tagged = extract.records_of(dump, "fe80::1", extract.tagged((0x8100, 10)))
    (folder / "a b.pcap").write_bytes(capture_files.pcap(tagged))
    links = [extract.records_of(dump, "fe80::1", extract.linked(link)) for link in (3, 4)]
    (folder / "links.pcap").write_bytes(capture_files.pcap(sum(links, []), 276))
    for shell, script in SHELLS.items():
        if not shutil.which(shell):
            continue
        for line, wanted in COMPLETED:
            more = ["completions"] if shell == "bash" else []
            words = [shell, "-c", script, *more, line, TOP / f"docs/babel-dump.{shell}"]
            how = {"cwd": folder, "capture_output": True, "text": True}
            path = f"{folder / 'tools'}:{os.environ['PATH']}"
            done = subprocess.run(words, env={**os.environ, "PATH": path}, **how)
            found = sorted(done.stdout.split()), done.stderr
            expect(tally, f"{shell} completes {line}", found, (wanted, ""))
    if shutil.which("zsh"):
        done = subprocess.run(["zsh", "-n", TOP / "docs/_babel-dump"], capture_output=True)
        expect(tally, "zsh reads its completions", (done.returncode, done.stderr), (0, b""))


def check_found_completions(folder, tally):
    """The shells that are here find the completions where they are installed."""
    share = folder / "usr/share"
    for shell, (script, wanted) in FOUND.items():
        if shutil.which(shell) and (shell != "bash" or BASH_COMPLETION.exists()):
            path = f"{folder / 'usr/bin'}:{os.environ['PATH']}"
            where = {"XDG_DATA_DIRS": f"{share}:/usr/share", "HOME": str(folder), "PATH": path}
            how = {"env": {**os.environ, **where}, "capture_output": True, "text": True}
            done = subprocess.run([shell, "-c", script, shell, share], **how)
            expect(tally, f"{shell} finds its completions", wanted in done.stdout, True)


def example_captures():
    """The captures that help texts name: what fe80::1 and fe80::2 sent, and what changed in it."""
    network = TOP / "examples/network"
    both = [(ROUTERS / "babeld-basic-a", "fe80::1"), (ROUTERS / "frr-basic", "fe80::2")]
    yield "x.pcap", [*both, (network / "north-after", "fe80::1")]
    yield "y.pcap", both
    for place in "", "-1", "-2":
        yield f"before{place}.pcap", [(network / "north-before", "fe80::1")]
        yield f"now{place}.pcap", [(network / "north-after", "fe80::1")]


# A tcpdump that records what the file recorded.pcap has, until `timeout` stops it.
RECORDER = """#!/bin/sh
while [ "$1" != -w ]; do shift; done
if [ "$2" = - ]; then cat recorded.pcap; else cp recorded.pcap "$2" && exit 124; fi
"""


def put_recorder(folder):
    recorder = folder / "tools/tcpdump"
    recorder.write_text(RECORDER)
    recorder.chmod(0o755)


def put_example_files(folder):
    for name, sent in example_captures():
        records = []
        for dump, sender in sent:
            records += extract.records_of(dump.with_suffix(".dump").read_bytes(), sender)
        (folder / name).write_bytes(capture_files.pcap(records))
    shutil.copy(folder / "x.pcap", folder / "recorded.pcap")
    shutil.copy(TOP / "examples/pairs.txt", folder)
    shutil.copy(ONE_ROUTE, folder / "x.dump")
    put_recorder(folder)


def examples(program):
    """The examples of the help texts and of the manual page, but for those that only record."""
    for words in [], *([command] for command in options.COMMANDS):
        yield from re.findall(r"^  (babel-dump .*)$", help_of(program, *words), re.MULTILINE)
    manual = options.MANUAL.read_text().replace("\\-", "-").replace("\\(aq", "'")
    for block in re.findall(r"^\.EX\n(.*?)^\.EE$", manual, re.MULTILINE | re.DOTALL):
        commands = block.replace("|\n", "| ").splitlines()
        yield from (command for command in commands if "babel-dump " in command)


def check_examples(program, folder, tally):
    """Examples work as printed: they write, unless `diff` finds none, and nothing goes wrong."""
    put_example_files(folder)
    for example in examples(program):
        if "jq" in example.split() and shutil.which("jq") is None:
            print(f"program: there is no command jq on the PATH for {example}", flush=True)
            continue
        done = transcript.shell(example, folder, capture_output=True)
        errors = done.stderr.decode().splitlines()
        faults = [line for line in errors if not re.match("(.+: )?note: ", line)]
        writes = done.stdout != b"" or (" diff " in example and done.returncode == 0)
        found = done.returncode in (0, 1), writes, faults
        expect(tally, f"an example: {example}", found, (True, True, []))


def text_of(line):
    """What `show` and `pairs` write as text where they write this line as JSON; a note on standard
    error."""
    said = json.loads(line)
    if said.get("note") == "ignored":
        counts = ["{reason} {count} first {first}".format(**each) for each in said["ignored"]]
        total = sum(each["count"] for each in said["ignored"])
        return f"! note: {total} of {said['tlvs']} TLVs ignored: {', '.join(counts)}\n"
    if "tlvs" in said:
        ignored = [
            "ignored {reason} {count} first {first}\n".format(**each) for each in said["ignored"]
        ]
        return f"tlvs {said['tlvs']}\n" + "".join(ignored)
    answer = said["answer"]
    if answer == {"unreachable": True}:
        answer = "unreachable"
    else:
        answer = "via {next_hop} id {router_id} seqno {seqno} metric {metric}".format(**answer)
    return f"{said['destination']} from {said['source']} {answer}\n"


def check_json(program, tally):
    """Python reads in the JSON of each capture what is in its text."""
    for name, sender in agree.SENDERS.items():
        for command in "show", "pairs":
            words = [program, command, "--hold", "--from", sender, ROUTERS / f"{name}.dump"]
            text, lines = (
                subprocess.run(words + more, check=True, capture_output=True)
                for more in ([], ["--json"])
            )
            printed = re.sub("(?m)^! hint: .*\n", "", transcript.printed(text))
            found = "".join(map(text_of, lines.stdout.decode().splitlines()))
            tally.check(f"{command} --json of {name}", transcript.difference(printed, found))


def lines_read(lines):
    """What the reader of examples/ makes of lines, or why it refuses one."""
    try:
        return [typed.line(line) for line in lines]
    except (KeyError, TypeError, ValueError) as error:
        return repr(error)


def check_typed(tally):
    """The reader of examples/ reads each whole line of JSON of the transcripts, of each kind, and
    has the members and the notes that OUTPUT and SELECTION have."""
    kinds = set()
    for file in sorted((TOP / "tests").glob("*.txt")):
        found = lines_read(re.findall(r'^\{".*\}$', file.read_text(), re.MULTILINE))
        is_read = isinstance(found, list)
        for each in found if is_read else []:
            kinds |= {type(each), type(each.line if isinstance(each, typed.Told) else each)}
        tally.check(f"examples/typed.py reads the JSON of {file.name}", "" if is_read else found)
    expect(tally, "the kinds of lines in transcripts", kinds, {*typed.KINDS, typed.Note, typed.Told})
    text = (TOP / "docs/OUTPUT.md").read_text()
    section = text.partition("\n## JSON\n")[2].partition("\n## ")[0]
    selection = (TOP / "docs/SELECTION.md").read_text()
    section += selection.partition("\nWith `--json`")[2].partition("\n\n")[0]
    objects = *typed.KINDS, typed.Route, typed.Counted, typed.Family
    members = {field.name for each in objects for field in dataclasses.fields(each)}
    expect(tally, "the members in OUTPUT", {*re.findall(r"`(\w+)`:", section)}, members)
    notes = re.findall(r'`(\{"note":[^`]*\})`', text + selection)
    filled = [re.sub(r":[MN]\b", ":0", note).replace("COUNTS", "[]") for note in notes]
    found = lines_read(note.replace("ADDRESS", "::") for note in filled)
    expect(tally, "the notes in OUTPUT", {each.note for each in found}, {*typed.NOTES})


def groups_of(number):
    return [number >> place & 0xFFFF for place in range(112, -16, -16)]


def long_text(number):
    return ":".join(f"{group:x}" for group in groups_of(number))


def short_text(number):
    """The text of RFC 5952, 4, as Python has it; of an IPv4-mapped address a later Python has the
    dotted ending of 5."""
    if number >> 32 == 0xFFFF:
        return "::ffff:{6:x}:{7:x}".format(*groups_of(number))
    return str(ipaddress.IPv6Address(number))


def addresses(count):
    """So many IPv6 addresses with many groups of zero; every tenth is IPv4-mapped."""
    draw = random.Random(count)
    for place in range(count):
        if place % 10 == 0:
            yield 0xFFFF << 32 | draw.getrandbits(draw.choice((8, 16, 24, 32)))
        else:
            groups = [draw.getrandbits(draw.choice((0, 0, 4, 8, 12, 16))) for _ in range(8)]
            yield sum(group << 16 * power for power, group in enumerate(groups))


def check_short(program, tally):
    """Python writes the same short texts of ten thousand addresses."""
    numbers = addresses(10_000)
    pairs = list(zip(numbers, numbers))
    words = [program, "lookup", "--short", "--quiet", "--from", "::", "--each", "-", os.devnull]
    asked = "".join(f"{long_text(dst)} {long_text(src)}\n" for dst, src in pairs)
    wanted = "".join(f"{short_text(dst)} from {short_text(src)} none\n" for dst, src in pairs)
    found = subprocess.run(words, input=asked, capture_output=True, text=True).stdout
    tally.check("--short of 10,000 addresses", transcript.difference(wanted, found))


def check_install(folder, tally):
    """What is installed runs without the repository."""
    subprocess.run([TOP / "install", folder / "usr"], check=True, stdout=subprocess.DEVNULL)
    words = [*SHOW, ONE_ROUTE]
    found = subprocess.run(
        [folder / "usr/bin/babel-dump", *words], env={"PATH": ""}, capture_output=True
    )
    expect(tally, "the installed program", found.stdout, ONE_ROUTE_SHOWN)
    for name in INSTALLED:
        expect(tally, f"{name} is installed", (folder / "usr/share" / name).is_file(), True)


NO_KIT = "cannot build: there is no command rt on the PATH (the Rattle kit)"
# What is said where something is missing, by the words and the commands that are there besides.
REFUSED_INSTALLS = (
    (["usr"], [], 127, NO_KIT),
    (["file/usr"], ["rt"], 1, "cannot write to file; ./install FOLDER takes another folder"),
    (["--deb"], ["rt", "dpkg-deb"], 1, "there is no command strip on the PATH"),
    (["--deb"], ["dpkg-deb", "strip"], 127, NO_KIT),
    (["--folder"], ["rt"], 2, "no such option: --folder"),
    (["usr", "more"], ["rt"], 2, "it takes a FOLDER, or --deb"),
)


def check_refused_installs(tally):
    """In a clone without a build `./install` says at once what is missing, and makes nothing."""
    for words, commands, status, text in REFUSED_INSTALLS:
        with tempfile.TemporaryDirectory() as folder:
            folder = pathlib.Path(folder)
            shutil.copy(TOP / "install", folder)
            shutil.copytree(TOP / "tools", folder / "tools")
            (folder / "file").touch()
            (folder / "bin").mkdir()
            for name in "sh", "dirname", "sed", "install", "mkdir", "find":
                (folder / "bin" / name).symlink_to(shutil.which(name))
            for name in commands:
                (folder / "bin" / name).symlink_to(shutil.which("false"))
            before = sorted(folder.iterdir())
            how = {"cwd": folder, "env": {"PATH": str(folder / "bin")}, "capture_output": True}
            done = subprocess.run(["./install", *words], **how)
            found = done.returncode, done.stderr.decode(), sorted(folder.iterdir())
            wanted = status, f"install: {text}\n", before
            expect(tally, f"./install {' '.join(words)}", found, wanted)
    done = subprocess.run([TOP / "install", "--help"], capture_output=True, text=True)
    told = done.stdout.count("./install"), done.returncode, done.stderr
    expect(tally, "./install --help", told, (2, 0, ""))


def check_package(folder, tally):
    """The Debian package has what is installed, and lintian has no error for it."""
    if not shutil.which("dpkg-deb"):
        return
    done = subprocess.run([TOP / "install", "--deb"], capture_output=True, text=True, check=True)
    package = re.search(r"in '(.*)'", done.stdout)[1]
    subprocess.run(["dpkg-deb", "-x", package, folder / "package"], check=True)
    found = subprocess.run(
        [folder / "package/usr/bin/babel-dump", *SHOW, ONE_ROUTE], env={}, capture_output=True
    )
    expect(tally, "the program of the package", found.stdout, ONE_ROUTE_SHOWN)
    if shutil.which("lintian"):
        told = subprocess.run(["lintian", package], capture_output=True, text=True)
        errors = [line for line in told.stdout.splitlines() if line.startswith("E:")]
        expect(tally, "what lintian says of the package", (told.returncode, errors), (0, []))


def check(tally, _long):
    program = built_program()
    with tempfile.TemporaryDirectory() as folder:
        folder = pathlib.Path(folder)
        transcript.link(program, folder)
        transcript.link_examples(folder)
        names = "program", "worked", "time", "hold", "events", "links", "select", "words", "names"
        for name in names:
            transcript.play(TOP / f"tests/{name}.txt", folder, tally)
        transcript.put(dict(large_dumps()), folder)
        transcript.play(TOP / "tests/limits.txt", folder, tally)
        check_closed_pipe(program, tally)
        check_failed_read(program, tally)
        check_failed_write(program, tally)
        check_full_file(program, tally)
        check_colours(program, tally)
        check_little_memory(program, folder, tally)
        check_options(program, tally)
        check_examples(program, folder, tally)
        check_completions(folder, tally)
        check_json(program, tally)
        check_typed(tally)
        check_short(program, tally)
        check_refused_installs(tally)
        check_install(folder, tally)
        check_found_completions(folder, tally)
        check_package(folder, tally)
