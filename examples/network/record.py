#!/usr/bin/env python3
"""Records the dumps of this folder: runs five routers in network namespaces, and writes what two of
them send to a third.

    record.py BABELD FOLDER

BABELD is the program babeld (1.12 or later), FOLDER is where the dumps go. It takes four minutes,
and needs root and iproute2. Nothing outside its namespaces changes. The README.md of examples/ says
what the network is and what happens to it.
"""

import os
import pathlib
import shlex
import socket
import struct
import subprocess
import sys
import time

ROUTERS = ["border", "branch", "north", "south", "collector"]
LINKS = [
    ("border", "north"),
    ("border", "south"),
    ("branch", "north"),
    ("branch", "south"),
    ("north", "collector"),
    ("south", "collector"),
]
NETWORKS = {
    "border": ["0.0.0.0/0", "10.1.0.0/16", "10.2.0.0/16", "::/0", "2001:db8:1::/48"],
    "branch": ["10.3.0.0/16", "2001:db8:3::/48"],
}
SETTINGS = {
    "border": ["interface to-south rxcost 256"],
    "branch": ["interface to-south rxcost 256"],
    "north": ["out if to-collector ip 10.3.0.0/16 deny"],
}
# What is kept of whom, and from which second to which; the link fails at the second 60 and is back
# at the second 100.
DUMPS = {
    "north-before": ("north", 20, 60),
    "north-after": ("north", 200, 240),
    "south-after": ("south", 200, 240),
}
FAILS, IS_BACK, END = 60, 100, 242
BABEL_PORT, HEADERS = 6696, 14 + 40 + 8
# The last word of the run in namespaces of its own.
INSIDE = "inside"


def run(words):
    subprocess.run(shlex.split(words), check=True)


def number(router):
    return ROUTERS.index(router) + 1


def build():
    run("mount -t tmpfs tmpfs /run")
    for router in ROUTERS:
        run(f"ip netns add {router}")
        forwarding = "net.ipv4.ip_forward=1 net.ipv6.conf.all.forwarding=1"
        run(f"ip netns exec {router} sysctl -qw {forwarding}")
    for place, (one, other) in enumerate(LINKS):
        ends = [
            f"to-{to} netns {own} address 02:00:00:00:{number(own):02x}:{number(to):02x}"
            for own, to in ((one, other), (other, one))
        ]
        run(f"ip link add {ends[0]} type veth peer name {ends[1]}")
        for own, to, host in ((one, other, 1), (other, one, 2)):
            run(f"ip -n {own} address add 192.0.2.{4 * place + host}/30 dev to-{to}")
            run(f"ip -n {own} link set to-{to} up")
    for router, networks in NETWORKS.items():
        run(f"ip -n {router} link add stub type veth peer name stub-end")
        run(f"ip -n {router} link set stub-end up")
        run(f"ip -n {router} link set stub up")
        run(f"ip -n {router} address add 203.0.113.{number(router)}/32 dev stub")
        for network in networks:
            family = "-6" if ":" in network else "-4"
            run(f"ip -n {router} {family} route add {network} dev stub proto static")


def start(babeld, router):
    lines = [
        f"router-id 02:00:00:00:00:00:00:{number(router):02x}",
        f"state-file /run/{router}.state",
        f"pid-file /run/{router}.pid",
        "redistribute proto 4 allow",
        "redistribute local deny",
        *SETTINGS.get(router, []),
    ]
    configuration = pathlib.Path(f"/run/{router}.conf")
    configuration.write_text("\n".join(lines) + "\n")
    interfaces = [f"to-{to}" for link in LINKS if router in link for to in link if to != router]
    return subprocess.Popen(
        [
            "ip",
            "netns",
            "exec",
            router,
            babeld,
            "-c",
            configuration,
            "-L",
            f"/run/{router}.log",
            *interfaces,
        ]
    )


LISTENER = """
import socket, sys, time
heard = socket.socket(socket.AF_PACKET, socket.SOCK_RAW, socket.htons(0x86DD))
heard.bind((sys.argv[1], 0))
while True:
    frame, address = heard.recvfrom(65535)
    if address[2] != socket.PACKET_OUTGOING:
        print(time.time(), frame.hex(), flush=True)
"""


def listen(router):
    """Each frame that the router sends to the collector becomes a line, with its time."""
    words = ["ip", "netns", "exec", "collector", sys.executable, "-c", LISTENER, f"to-{router}"]
    with open(f"/run/{router}.frames", "w") as frames:
        return subprocess.Popen(words, stdout=frames)


def packets(router, first, end):
    """The Babel packets that the router sent in this time, end to end."""
    found = []
    for line in pathlib.Path(f"/run/{router}.frames").read_text().splitlines():
        second, frame = line.split()
        frame = bytes.fromhex(frame)
        is_babel = (
            frame[20] == socket.IPPROTO_UDP and struct.unpack_from(">H", frame, 56)[0] == BABEL_PORT
        )
        if is_babel and first <= float(second) < end:
            found.append(frame[HEADERS:])
    return b"".join(found)


def record(babeld, folder):
    build()
    time.sleep(3)
    running = [listen(router) for router in ("north", "south")]
    began = time.time()
    running += [start(babeld, router) for router in ROUTERS]
    for second, state in ((FAILS, "down"), (IS_BACK, "up"), (END, None)):
        time.sleep(began + second - time.time())
        if state:
            run(f"ip -n north link set to-border {state}")
    for process in running:
        process.terminate()
        process.wait()
    for name, (router, first, end) in DUMPS.items():
        (folder / f"{name}.dump").write_bytes(packets(router, began + first, began + end))


def main():
    if sys.argv[3:] == [INSIDE]:
        record(sys.argv[1], pathlib.Path(sys.argv[2]))
    else:
        os.execvp(
            "unshare",
            ["unshare", "--net", "--mount", sys.executable, __file__, *sys.argv[1:3], INSIDE],
        )


if __name__ == "__main__":
    main()
