#!/usr/bin/env python3
"""Compares what mcaudit-try takes from files of smcroute with what smcrouted and the kernel make of them.

  python3 tests/lab/conf.py PROGRAM [COUNT [FIRST]]

In a network namespace of its own a smcrouted reads COUNT (40) files that are made at random from FIRST (0) on, each
with `-N`: with vifs in any order and thresholds, entries of several lines and of several incoming devices, ranges,
line ends of both kinds and comments. A packet of each listed flow comes, so that what is made on demand is there. Then
each vif and each entry of /proc/net has to be the one that the tool gives the router, where it takes the whole file;
and of files that it doesn't take whole at least one has to come, and of the others most. The last line counts the
files: `N passed, M failed`. The status is 0 if none failed and one was tried. It has to be run as root.
"""
import os
import random
import socket
import struct
import subprocess
import sys
import tempfile
import time

sys.dont_write_bytecode = True
TOP = os.path.join(os.path.dirname(os.path.abspath(__file__)), "..", "..")
sys.path += [os.path.join(TOP, it) for it in ("tools", "tests", "tests/audited")]
from mcaudit_tools import conf, tried
from mcaudit_tools.igmp import sum_of
from ended import status_of
from random_domains import CACHE_HEADER, VIF_HEADER

SPACE = f"mcaudit-conf-{os.getpid()}"
DEVICES = ["eth0", "eth1", "eth2", "eth3", "eth4"]
SOURCES = ["10.77.0.5", "10.77.0.6", "10.77.3.7", "10.77.4.9"]
GROUPS = ["239.1.2.3", "239.1.2.4", "239.1.9.9", "239.7.7.7"]
THRESHOLDS = ["", "", " ttl-threshold 1", " ttl-threshold 3", " ttl-threshold 64", " ttl-threshold 255"]
ODD = ["mroute from eth0 group 239.1.2.3 to eth1", "include /etc/more.conf", "mroutes from eth0",
       "phyint eth1 ttl-threshold 3", "mroute from eth9 source 10.77.0.5 group 239.1.2.3 to eth1"]
LEAST = 0.4  # of the files the part that is taken whole


def inside(*words, **how):
    """Runs a command in the namespace."""
    return subprocess.run(["ip", "netns", "exec", SPACE, *words], check=True, **how)


def build():
    """Makes the namespace with its devices, and lets packets from everywhere come in."""
    subprocess.run(["ip", "netns", "add", SPACE], check=True)
    inside("sh", "-c", "for it in all default; do echo 0 > /proc/sys/net/ipv4/conf/$it/rp_filter; done")
    for number, device in enumerate(DEVICES):
        inside("ip", "link", "add", device, "type", "veth", "peer", "name", f"far{number}")
        inside("ip", "link", "set", f"far{number}", "multicast", "off", "up")
        inside("ip", "link", "set", device, "up")
        inside("ip", "address", "add", f"10.77.{number}.1/24", "dev", device)


def made(pick):
    """The lines of a file at random."""
    order = [DEVICES[0], *pick.sample(DEVICES[1:], pick.randint(2, 4))]
    pick.shuffle(order)
    lines = [f"phyint {it} enable{pick.choice(THRESHOLDS)}" for it in order]
    lines += [f"phyint {pick.choice(DEVICES[1:])} disable"] * (pick.random() < 0.1)
    for _ in range(pick.randint(1, 7)):
        source = pick.choice(SOURCES) + pick.choice([*[""] * 14, "/32", "/32", "/24"])
        group = pick.choice(GROUPS) + pick.choice([*[""] * 14, "/32", "/32", "/24", "/16"])
        ends = pick.sample([f"source {source}", f"group {group}"], 2)
        outgoing = pick.sample(order, pick.randint(0, 3))
        behind = f" to {pick.choice(['', '  '])}{' '.join(outgoing)}" if outgoing else pick.choice(["", " # to eth1"])
        start = pick.choice([DEVICES[0], order[0]])
        lines.append(pick.choice(["", " ", "\t"]) + f"mroute from {start} {' '.join(ends)}{behind}")
    lines.insert(pick.randint(len(order), len(lines)), f"phyint {order[-1]} enable{pick.choice(THRESHOLDS)}")
    lines.insert(0, "# made at random")
    lines += [pick.choice(ODD)] * (pick.random() < 0.1)
    return pick.choice(["\n", "\n", "\r\n"]).join(lines) + pick.choice([*["\n"] * 9, ""])


def packet(source, group):
    """A frame with a UDP packet of the flow."""
    ends = socket.inet_aton(source), socket.inet_aton(group)
    head = struct.pack(">BBHHHBB", 0x45, 0, 28, 1, 0, 9, 17), b"".join(ends)
    total = head[0] + sum_of(head[0] + bytes(2) + head[1]).to_bytes(2, "big") + head[1]
    mac = b"\x01\0\x5e" + bytes([ends[1][1] & 127]) + ends[1][2:]
    return mac + b"\x02\0\0\0\0\x01\x08\0" + total + struct.pack(">HHHH", 1000, 1000, 8, 0)


SEND = """import socket, sys
sock = socket.socket(socket.AF_PACKET, socket.SOCK_RAW)
sock.bind(("far0", 0x0800))
for line in sys.stdin:
    sock.send(bytes.fromhex(line))
"""


def by_kernel(path, folder):
    """What /proc/net has once smcrouted has read the file, and a packet of each flow has come in by eth0."""
    ready = os.path.join(folder, "pid")
    with open(os.path.join(folder, "log"), "wb") as log, subprocess.Popen(
            ["ip", "netns", "exec", SPACE, "smcrouted", "-n", "-N", "-f", path, "-P", ready, "-u",
             os.path.join(folder, "socket"), "-l", "debug"], stdout=log, stderr=log) as daemon:
        until = time.monotonic() + 20
        while not os.path.exists(ready) and daemon.poll() is None and time.monotonic() < until:
            time.sleep(0.05)
        frames = "".join(packet(source, group).hex() + "\n" for source in SOURCES for group in GROUPS)
        inside(sys.executable, "-c", SEND, input=frames.encode())
        time.sleep(0.3)
        texts = [inside("cat", f"/proc/net/{it}", stdout=subprocess.PIPE).stdout for it in ("ip_mr_vif", "ip_mr_cache")]
        daemon.terminate()
    return texts


def by_tool(program, path, folder, vifs):
    """What the tool gives the router: the copy, and what isn't audited."""
    lines = ["version = 1", 'lans = ["l0", "l1", "l2", "l3", "l4"]', 'router = [{name = "r1"}]', "interface = ["]
    lines += [f'{{router = "r1", device = "{it}", lan = "l{at}"}},' for at, it in enumerate(DEVICES)]
    lines += ["]", "source = [", *(f'{{address = "{it}", lan = "l0"}},' for it in SOURCES), "]", "flow = ["]
    lines += [f'{{source = "{it}", group = "{group}", ttl = 64}},' for it in SOURCES for group in GROUPS]
    texts = {"topology": "\n".join([*lines, "]", ""]), "cache-r1": CACHE_HEADER, "vif-r1": vifs}
    texts.update({f"igmp-l{at}": "" for at in range(len(DEVICES))})
    for name, text in texts.items():
        with open(os.path.join(folder, name), "w", encoding="utf-8") as file:
            file.write(text)
    tried.find_tool = lambda name: program
    with tried.Copy(folder) as copy:
        list(copy.audit("--unlisted"))
        unaudited, _ = conf.apply(copy, conf.Given("r1", path), None)
        return unaudited, copy.vifs("r1").text(), copy.cache("r1").text()


def rows_of(text):
    """The rows of a cache without counters, by group and source."""
    rows = [it.split() for it in text.split(b"\n")[1:-1]]
    return {(it[0], it[1]): (it[2], it[6:]) for it in rows}


def vif_line(text):
    """The vifs of a table, without counters."""
    return [(it.split()[:2], it.split()[6:]) for it in text.split(b"\n")[1:-1]]


def differences(kernel, tool):
    """What differs between what the kernel has and what the tool gives. An entry on demand is there where a packet has
    come in by its device, and else the daemon has made one that forwards nothing."""
    if vif_line(kernel[0]) != vif_line(tool[0]):
        yield f"vifs: kernel\n{kernel[0].decode()}tool\n{tool[0].decode()}"
    there, given = rows_of(kernel[1]), rows_of(tool[1])
    first = next((it[0][0] for it in vif_line(kernel[0]) if it[0][1] == b"eth0"), None)
    for key in {*there, *given}:
        one, other = there.get(key), given.get(key)
        if one != other and (one is None or one[1] or other is not None and other[0] == first or one[0] != first):
            yield f"{key}: kernel {one}, tool {other}"


def main():
    program, numbers = os.path.abspath(sys.argv[1]), [int(it) for it in sys.argv[2:4]]
    count, first = (*numbers, *(40, 0)[len(numbers):])
    failed = whole = 0
    build()
    try:
        vifs = VIF_HEADER + "".join(f"{at:2} {it:<10} {0:8} {0:7}  {0:8} {0:7} 00008 {at:08X} 00000000\n"
                                    for at, it in enumerate(DEVICES))
        for at, device in enumerate(DEVICES):
            index = inside("cat", f"/sys/class/net/{device}/ifindex", stdout=subprocess.PIPE).stdout
            vifs = vifs.replace(f"00008 {at:08X} ", f"00008 <{int(index):08X}> ", 1)
        vifs = vifs.replace("<", "").replace(">", "")
        for number in range(first, first + count):
            with tempfile.TemporaryDirectory(prefix="mcaudit-conf-") as folder:
                path = os.path.join(folder, "smcroute.conf")
                text = made(random.Random(number))
                with open(path, "w", encoding="utf-8", newline="") as file:
                    file.write(text)
                unaudited, *tool = by_tool(program, path, folder, vifs)
                if unaudited:
                    continue
                whole += 1
                found = list(differences(by_kernel(path, folder), tool))
                if found:
                    failed += 1
                    print(f"file {number}:\n{text}", *found, sep="\n")
    finally:
        subprocess.run(["ip", "netns", "delete", SPACE], check=True)
    if not LEAST * count <= whole <= count - (count >= 40):
        failed += 1
        print(f"{whole} of {count} files were taken whole")
    return status_of(count - failed, failed)


if __name__ == "__main__":
    sys.exit(main())
