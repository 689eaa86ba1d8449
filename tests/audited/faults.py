#!/usr/bin/env python3
"""The domains of examples/faults, each of which shows what an audit can tell of it.

  python3 tests/audited/faults.py [NAME..]     writes the folders of these anew, or of all, with their answers, as root

Each router's tables are written by the kernel of the machine: in a network namespace of its own it gets the domain's
devices, vifs and rows, and its /proc/net/ip_mr_vif and /proc/net/ip_mr_cache are copied. What a kernel shows but rarely (a
vif without a line, or whose device is gone, a tunnel of a kernel that has none) is put into the copies.

A router is told by its devices, each with its LAN (none where the topology doesn't list it), vif numbers counting from 0
in their order, and by its rows of the flow: from which device to which, with a threshold behind a colon. What the hosts
of a LAN ask for besides is told by its records.

Beside a folder stands its answer as answers.py works it out, as text and as JSON, with the words that WORDS has for it.
Whoever writes one anew reads it against the tables.
"""
import ctypes
import json
import os
import shutil
import socket
import struct
import subprocess
import sys
import time

sys.dont_write_bytecode = True
import answers
from random_domains import report_of

FOLDER = os.path.join(os.path.dirname(os.path.abspath(__file__)), "..", "..", "examples", "faults")
CLONE_NEWNET = 0x40000000
MRT_INIT, MRT_ADD_VIF, MRT_ADD_MFC = 200, 202, 204  # linux/mroute.h
VIFF_REGISTER, VIFF_USE_IFINDEX = 0x4, 0x8
SOURCE, GROUP = "10.0.0.5", "239.1.2.3"
SCANNED = [f"10.0.0.6 239.1.3.{last}: eth0 > " for last in range(1, 25)]

# The words of an audit that an example needs, if any.
WORDS = {
    "left-out-router": "--without r2",
    "a-source-that-scans-groups": "--unlisted",
}


def made(**told):
    """A domain in which r1 forwards the flow from studio onto core, and r2 from there onto hall, but for the routers
    that are named: the devices of each, and behind a bar its rows, or None where there is no such router. Beside them
    may be the LANs that want the flow, and what else is not as in most."""
    routers = {"r1": "eth0=studio eth1=core | eth0 > eth1", "r2": "eth0=core eth1=hall | eth0 > eth1"}
    routers |= {name: told.pop(name) for name in list(told) if name[0] == "r"}
    halves = {name: text.split(" | ") for name, text in routers.items() if text is not None}
    return {"routers": {name: devices for name, (devices, _) in halves.items()},
            "rows": {name: rows for name, (_, rows) in halves.items()}, **told}


DOMAINS = {
    "duplicate-by-two-routers": made(r3="eth0=studio eth1=hall | eth0 > eth1"),
    "duplicate-by-one-router": made(r2="eth0=core eth1=hall eth2=hall | eth0 > eth1 eth2"),
    "loop-of-two-routers": made(r3="eth0=hall eth1=core | eth0 > eth1"),
    "loop-of-three-routers": made(r3="eth0=hall eth1=annex | eth0 > eth1", r4="eth0=annex eth1=core | eth0 > eth1"),
    "loop-that-needs-a-ttl": made(r1="eth0=studio eth1=core | eth0 > eth1:16", r3="eth0=hall eth1=core | eth0 > eth1"),
    "stray-to-an-unlisted-device": made(r1="eth0=studio eth1=core eth2 | eth0 > eth1 eth2"),
    "stray-to-the-register-vif": made(r1="eth0=studio eth1=core pimreg | eth0 > eth1 pimreg"),
    "stray-to-a-tunnel": made(r1="eth0=studio eth1=core tun0 | eth0 > eth1 tun0"),
    "stray-to-a-lost-device": made(r1="eth0=studio eth1=core eth2 | eth0 > eth1 eth2", gone={"r1": "eth2"}),
    "stray-to-a-vif-without-a-line": made(r1="eth0=studio eth1=core eth2 | eth0 > eth1 eth2", lineless={"r1": "eth2"}),
    "stray-into-a-shared-tree": made(r2="eth0=core eth1=hall | *: eth0 > eth1"),
    "loop-behind-a-stray": made(
        r1="eth0=studio eth1=core pimreg | eth0 > eth1 pimreg",
        r3="eth0=hall eth1=core | eth0 > eth1"),
    "missed-behind-a-stray": made(r1="eth0=studio eth1=core eth2 | eth0 > eth2"),
    "missed-without-a-row": made(r2="eth0=core eth1=hall | "),
    "missed-with-an-unresolved-row": made(r2="eth0=core eth1=hall | eth0 > ?"),
    "missed-behind-a-shared-tree": made(r1="eth0=studio eth1=core | ", r2="eth0=core eth1=hall | *: eth0 > eth1"),
    "missed-by-the-outgoing-list": made(r2="eth0=core eth1=hall eth2=annex | eth0 > eth2"),
    "missed-behind-a-silent-lan": made(
        r2="eth0=core eth1=link | ",
        r3="eth0=link eth1=hall eth2=annex | eth0 > eth1",
        r4="eth0=link eth1=hall | eth0 > ",
        wants="hall annex"),
    "missed-by-the-wrong-way": made(
        r2="eth0=core eth1=hall eth2 | eth2 > eth1",
        r3="eth0=core eth1=hall | eth1 > eth0",
        r4="eth0=core eth1=hall pimreg | pimreg > eth1",
        r5="eth0=core eth1=hall tun0 | tun0 > eth1",
        r6="eth0=core eth1=hall eth2 | eth2 > eth1",
        r7="eth0=core eth1=hall eth2 | eth2 > eth1",
        gone={"r6": "eth2"},
        lineless={"r7": "eth2"}),
    "missed-by-missing-vifs": made(
        r2="eth0=core eth1=hall eth2=annex | eth0 > eth2",
        r3="eth0=core tun0=hall | ",
        lineless={"r2": "eth1"}),
    "missed-without-a-router": made(r2=None),
    "missed-at-the-greatest-threshold": made(r2="eth0=core eth1=hall | eth0 > eth1:254"),
    "missed-by-a-threshold": made(r2="eth0=core eth1=hall | eth0 > eth1:16"),
    "nobody-wants-it": made(wants=""),
    "a-flow-that-is-not-listed": made(
        r1="eth0=studio eth1=core | eth0 > eth1 / 10.0.0.6 239.1.2.9: eth0 > eth1",
        r2="eth0=core eth1=hall | eth0 > eth1 / 10.0.0.6 239.1.2.9: eth0 > eth1"),
    "a-source-that-scans-groups": made(
        r1=" / ".join(["eth0=studio eth1=core | eth0 > eth1", *SCANNED]),
        r2=" / ".join(["eth0=core eth1=hall | eth0 > eth1", *SCANNED[-3:]])),
    "groups-that-no-flow-lists": made(
        r1="eth0=studio eth1=core | eth0 > eth1 / 10.0.0.6 239.1.2.8: eth0 > eth1 / 10.0.0.6 239.1.2.7: eth0 > ",
        r2="eth0=core eth1=hall | eth0 > eth1 / 10.0.0.6 239.1.2.8: eth0 > eth1",
        asks={"core": [(2, "239.1.2.9", []), (1, GROUP, ["10.0.0.7"]), (2, "239.255.255.250", [])],
              "hall": [(2, "239.1.2.7", []), (2, "239.1.2.8", []), (2, "239.1.2.9", []), (2, "232.0.0.9", []),
                       (2, "239.255.255.250", [])]}),
    "left-out-router": made(
        r2="eth0=core eth1=link | eth0 > eth1",
        r3="eth0=link eth1=hall | eth0 > eth1",
        wants="core hall",
        missing=["r2"]),
    "the-wrong-byte-order": made(orders={"r2": "big"}),
}


def devices_of(domain, router):
    """A router's devices, each with its LAN or none."""
    return [tuple(word.partition("=")[::2]) for word in domain["routers"][router].split()]


def lans_of(domain):
    lans = [lan for router in domain["routers"] for _, lan in devices_of(domain, router) if lan]
    return list(dict.fromkeys(lans + domain.get("wants", "hall").split()))


def rows_of(domain, router):
    """A router's rows: source, group, incoming vif, and thresholds by vif, None where it is unresolved."""
    numbers = {device: number for number, (device, _) in enumerate(devices_of(domain, router))}
    for row in filter(None, domain["rows"].get(router, "").split(" / ")):
        pair, _, way = row.rpartition(": ")
        source, group = {"": (SOURCE, GROUP), "*": ("0.0.0.0", GROUP)}.get(pair) or pair.split()
        incoming, _, outgoing = way.partition(" > ")
        pairs = {numbers[device]: int(threshold or 1)
                 for device, _, threshold in (word.partition(":") for word in outgoing.split() if word != "?")}
        yield source, group, numbers[incoming], None if outgoing == "?" else pairs


def topology_of(domain):
    interfaces = [(router, device, lan) for router in domain["routers"] for device, lan in devices_of(domain, router) if lan]
    orders = domain.get("orders", {})
    lines = ["version = 1", f"lans = {json.dumps(lans_of(domain))}", "router = ["]
    lines += [f'{{name = "{name}", order = "{orders[name]}"}},' if name in orders else f'{{name = "{name}"}},'
              for name in domain["routers"]]
    lines += ["]", "interface = ["]
    lines += [f'{{router = "{router}", device = "{device}", lan = "{lan}"}},' for router, device, lan in interfaces]
    lines += ["]", f'source = [{{address = "{SOURCE}", lan = "studio"}}]',
              f'flow = [{{source = "{SOURCE}", group = "{GROUP}", ttl = 8}}]']
    return "\n".join(lines) + "\n"


# ---- the tables, as the kernel writes them

def set_vifs(igmp, devices):
    for number, device in enumerate(devices):
        index, flags = 0, VIFF_REGISTER
        if device != "pimreg":
            subprocess.run(["ip", "link", "add", device, "type", "veth", "peer", "name", f"peer{number}"], check=True)
            for name in (device, f"peer{number}"):
                subprocess.run(["ip", "link", "set", name, "up"], check=True)
            index, flags = socket.if_nametoindex(device), VIFF_USE_IFINDEX
        vif = struct.pack("=HBBIi4s", number, flags, 1, 0, index, bytes(4))
        igmp.setsockopt(socket.IPPROTO_IP, MRT_ADD_VIF, vif)


def set_row(igmp, source, group, incoming, pairs):
    thresholds = bytes(pairs.get(vif, 0) for vif in range(32))
    row = struct.pack("@4s4sH32sIIIi", socket.inet_aton(source), socket.inet_aton(group), incoming, thresholds, 0, 0, 0, 0)
    igmp.setsockopt(socket.IPPROTO_IP, MRT_ADD_MFC, row)


def send_unrouted(source, group, incoming):
    """A packet for which there is no row, so that the kernel shows an unresolved one."""
    packet = struct.pack(">BBHHHBBH4s4s", 0x45, 0, 20, 1, 0, 8, 17, 0, socket.inet_aton(source), socket.inet_aton(group))
    total = sum(struct.unpack(">10H", packet))
    checksum = 0xFFFF - (total & 0xFFFF) - (total >> 16)
    packet = packet[:10] + struct.pack(">H", checksum) + packet[12:]
    target = b"\x01\x00\x5e" + bytes([packet[17] & 0x7F]) + packet[18:20]
    with socket.socket(socket.AF_PACKET, socket.SOCK_RAW) as peer:
        peer.bind((f"peer{incoming}", 0))
        peer.send(target + bytes(5) + b"\x01" + b"\x08\x00" + packet)
    time.sleep(0.2)


def write_tables(devices, rows, target):
    """Writes the two tables of a kernel that has these vifs and rows, in a network namespace that ends with this process."""
    libc = ctypes.CDLL(None, use_errno=True)
    if libc.unshare(CLONE_NEWNET):
        raise OSError(ctypes.get_errno(), "no network namespace: this needs root")
    for name in ("all", "default"):
        with open(f"/proc/sys/net/ipv4/conf/{name}/rp_filter", "w", encoding="ascii") as file:
            file.write("0")
    igmp = socket.socket(socket.AF_INET, socket.SOCK_RAW, socket.IPPROTO_IGMP)
    igmp.setsockopt(socket.IPPROTO_IP, MRT_INIT, struct.pack("i", 1))
    set_vifs(igmp, devices)
    for source, group, incoming, pairs in rows:
        if pairs is None:
            send_unrouted(source, group, incoming)
        else:
            set_row(igmp, source, group, incoming, pairs)
    for kernel, name in (("ip_mr_vif", "vif"), ("ip_mr_cache", "cache")):
        with open(f"/proc/self/net/{kernel}", encoding="ascii") as text, open(
                target.format(name), "w", encoding="ascii") as copy:
            copy.write(text.read())


def in_child(call):
    """Runs a call in a process of its own, so that its network namespace goes with it."""
    child = os.fork()
    if child == 0:
        status = 1
        try:
            call()
            status = 0
        finally:
            os._exit(status)
    if os.waitpid(child, 0)[1]:
        sys.exit("faults.py: the kernel wrote no tables")


def turn_vifs(path, change):
    """Changes the lines of a vif table: `change` gives a line for each line's words, or none."""
    with open(path, encoding="ascii") as file:
        head, *lines = file.read().splitlines(keepends=True)
    with open(path, "w", encoding="ascii") as file:
        file.write(head + "".join(filter(None, (change(line, line.split()[1]) for line in lines))))


def write_domain(name):
    domain, folder = DOMAINS[name], os.path.join(FOLDER, name)
    shutil.rmtree(folder, ignore_errors=True)
    os.makedirs(folder)
    with open(f"{folder}/topology", "w", encoding="ascii") as file:
        file.write(topology_of(domain))
    for router in domain["routers"]:
        if router in domain.get("missing", []):
            continue
        devices = [device for device, _ in devices_of(domain, router)]
        in_child(lambda: write_tables(devices, list(rows_of(domain, router)), f"{folder}/{{}}-{router}"))
        gone, lineless = (domain.get(word, {}).get(router) for word in ("gone", "lineless"))
        turn_vifs(f"{folder}/vif-{router}", lambda line, device: None if device == lineless else (
            line.replace(f"{device:<10}", "none      ") if device == gone else (
                line.replace(" 00008 ", " 00001 ") if device == "tun0" else line)))
    for lan in lans_of(domain):
        lines = [report_of([(2, GROUP, [])])] if lan in domain.get("wants", "hall").split() else []
        lines += [report_of(domain["asks"][lan])] if lan in domain.get("asks", {}) else []
        with open(f"{folder}/igmp-{lan}", "w", encoding="ascii") as file:
            file.writelines(f"{line}\n" for line in lines)


def answer_of(name, ending):
    """The answer of an example with its words, as text (`txt`) or as JSON (`json`)."""
    words = WORDS.get(name, "").split() + ["--json"] * (ending == "json")
    return answers.audit([os.path.join(FOLDER, name), *words]).output()


def write_answers(name):
    for ending in ("txt", "json"):
        with open(os.path.join(FOLDER, f"{name}.{ending}"), "w", encoding="ascii") as file:
            file.write(answer_of(name, ending))


if __name__ == "__main__":
    for wanted in sys.argv[1:] or DOMAINS:
        write_domain(wanted)
        write_answers(wanted)
