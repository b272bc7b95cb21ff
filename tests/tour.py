"""The tour: each command in the README, and in that of examples/, prints what stands below it
there. The README's scripts that record do what it says of them, with a recorder that has a file.

They run in a clone with an installed program. Where there is no `jq`, those that need it are only
found.
"""

import pathlib
import re
import shutil
import subprocess
import tempfile

import capture_files
import extract
import transcript
from checks import TOP, built_program
from program import expect, put_recorder

DOCUMENTS = ["README.md", "examples/README.md"]

SCRIPT = re.compile(r"(?m)^    #!/bin/sh.*\n(?:    .*\n)+")
SERVICE = re.compile(r"(?m)^    (tcpdump .* \| \\\n +babel-dump events .*)\n")

# The dump that fe80::1 sent when the script records after north-before.dump, the script's status,
# and how its last line begins; nobody sent, and the recorder fails.
RECORDED = (
    ("north-before.dump", 0, "same"),
    ("north-after.dump", 0, "same"),
    ("south-after.dump", 1, "right via"),
    (None, 1, "no Babel packets"),
    ("", 1, "cp: "),
)


def steps(file):
    """The commands of a document's blocks of code, each with the lines below it. A \\ joins two."""
    found, lines = [], None
    for number, line in enumerate(file.read_text().splitlines(), 1):
        code = re.fullmatch(r" {4}(.*)", line)
        if code is None:
            lines = None
        elif code[1].startswith("$ "):
            lines = []
            found.append([f"{file.relative_to(TOP)}:{number}", code[1][2:], lines])
        elif lines == [] and found[-1][1].endswith("\\"):
            found[-1][1] = found[-1][1][:-1] + code[1].lstrip()
        elif lines is not None:
            lines.append(code[1])
    return [transcript.step(*each) for each in found]


def check_step(each, folder, tally):
    streams = {"stdout": subprocess.PIPE, "stderr": subprocess.STDOUT}
    run = transcript.shell(each.command, folder, **streams)
    problem = transcript.difference(each.expected, run.stdout.decode())
    tally.check(f"{each.place}: {each.command}", problem)


def put_recorded(name, file):
    """The capture of a dump of the network, if one is named."""
    dump = (TOP / "examples/network" / name).read_bytes() if name else b""
    file.write_bytes(capture_files.pcap(extract.records_of(dump, "fe80::1")))


def check_scripts(program, folder, tally):
    """The script for CI tells good from bad; what changes is followed, and ends as its recorder."""
    transcript.link(program, folder)
    put_recorder(folder)
    readme = (TOP / "README.md").read_text()
    script, recorded = folder / "ci", folder / "recorded.pcap"
    script.write_text(re.sub("(?m)^    ", "", SCRIPT.search(readme)[0]))
    put_recorded("north-before.dump", folder / "good.pcap")
    for name, status, line in RECORDED:
        recorded.unlink(missing_ok=True)
        if name != "":
            put_recorded(name, recorded)
        run = transcript.shell("sh -e ./ci 2>&1", folder, stdout=subprocess.PIPE)
        last = run.stdout.decode().splitlines()[-1]
        found = run.returncode, last[: len(line)]
        expect(tally, f"the README's script for CI, of {name}", found, (status, line))
    put_recorded("north-after.dump", recorded)
    run = transcript.shell(SERVICE.search(readme)[1], folder, stdout=subprocess.PIPE)
    expect(tally, "the README's service", (run.returncode, run.stdout[:9]), (0, b'{"time":"'))


def check(tally, _long):
    program = built_program()
    with tempfile.TemporaryDirectory() as folder:
        check_scripts(program, pathlib.Path(folder), tally)
    for name in DOCUMENTS:
        with tempfile.TemporaryDirectory() as folder:
            folder = pathlib.Path(folder)
            transcript.link(program, folder)
            for part in "babel-dump", "examples":
                (folder / part).symlink_to(TOP / part)
            for each in steps(TOP / name):
                if "jq" in each.command.split() and shutil.which("jq") is None:
                    print(f"tour: there is no command jq on the PATH for {each.place}", flush=True)
                else:
                    check_step(each, folder, tally)
