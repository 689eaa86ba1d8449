#!/usr/bin/env python3
"""Measures mcaudit-premises --watch of many routers that are reached by ssh: each is a network namespace with a
kernel's tables, on the LAN of one source, and has a LAN of its own with a host.

  python3 tests/lab/many.py PROGRAM [COUNT [WORD ...]]     as root; PROGRAM is the built mcaudit

There are COUNT routers (256), and the tool gets the further words. It prints the seconds that passed, and those of a
processor: of the tool and ssh, of sshd and what that runs, which elsewhere are the routers' own, and of all that the
machine did meanwhile, with what was stolen from it. All routers have to be read, within a minute, as the guide says.
The last line counts: N passed, M failed.
"""
import ctypes
import json
import os
import socket
import struct
import subprocess
import sys
import time

sys.dont_write_bytecode = True
import premises as lab
sys.path.append(os.path.join(lab.HERE, "..", "audited"))
import faults
from random_domains import report_of

SOURCE, GROUP = faults.SOURCE, faults.GROUP
TICKS = os.sysconf("SC_CLK_TCK")
MOST = 60  # seconds that all of it may take
# runs a command, and says what it and what it waited for took of a processor
MEASURING = """import os, resource, sys
os.spawnvp(os.P_WAIT, sys.argv[1], sys.argv[1:])
used = resource.getrusage(resource.RUSAGE_CHILDREN)
print(used.ru_utime + used.ru_stime, file=sys.stderr)"""


class Many(lab.Lab):
    """The routers, without a network between them."""

    def __init__(self, program, count):
        """Takes the program, and how many routers there are."""
        super().__init__(program)
        self.places, self.sockets = [f"r{it}" for it in range(1, count + 1)], []

    def build(self):
        """Makes the routers with their tables, and the folder."""
        os.mkdir(self.site)
        for name in self.places:
            lab.run(f"ip netns add {self.name}-{name}")
            self.write_tables(name)
            self.write(f"igmp-l{name}", report_of([(2, GROUP, [])]) + "\n")
        self.write("igmp-l0", "")
        interfaces = [f'{{router = "{it}", device = "{device}", lan = "{lan}"}},' for it in self.places
                      for device, lan in (("eth0", "l0"), ("eth1", f"l{it}"))]
        self.write("topology", "\n".join([
            "version = 1", f"lans = {json.dumps(['l0', *(f'l{it}' for it in self.places)])}", "router = [",
            *(f'{{name = "{it}"}},' for it in self.places), "]", "interface = [", *interfaces, "]",
            f'source = [{{address = "{SOURCE}", lan = "l0"}}]',
            f'flow = [{{source = "{SOURCE}", group = "{GROUP}", ttl = 8}}]', ""]))
        self.begin_ssh(self.places)

    def write_tables(self, name):
        """Gives a router its vifs and its row, which last as long as this process, and copies its tables."""
        with open(f"/run/netns/{self.name}-{name}", "rb") as there, open("/proc/self/ns/net", "rb") as here:
            enter(there)
            try:
                igmp = socket.socket(socket.AF_INET, socket.SOCK_RAW, socket.IPPROTO_IGMP)
                self.sockets.append(igmp)
                igmp.setsockopt(socket.IPPROTO_IP, faults.MRT_INIT, struct.pack("i", 1))
                faults.set_vifs(igmp, ["eth0", "eth1"])
                faults.set_row(igmp, SOURCE, GROUP, 0, {1: 1})
                for kind in ("vif", "cache"):
                    with open(f"/proc/self/net/ip_mr_{kind}", encoding="ascii") as file:
                        self.write(f"{kind}-{name}", file.read())
            finally:
                enter(here)


def enter(namespace):
    """Goes into an open network namespace."""
    libc = ctypes.CDLL(None, use_errno=True)
    if libc.setns(namespace.fileno(), faults.CLONE_NEWNET):
        raise OSError(ctypes.get_errno(), "setns")


def took(pid):
    """The seconds of a processor that a process and those that it waited for took."""
    with open(f"/proc/{pid}/stat", encoding="ascii") as file:
        return sum(map(int, file.read().rpartition(") ")[2].split()[11:15])) / TICKS


def machine():
    """What the processors did until now, and what was stolen of them, in seconds."""
    with open("/proc/stat", encoding="ascii") as file:
        fields = [int(it) / TICKS for it in file.readline().split()[1:9]]
    return sum(fields[:3] + fields[5:7]), fields[7]


def watch(many, words):
    """Runs the tool with further words. Returns what it printed and said, and how many seconds that took."""
    with open(f"{many.folder}/routers", "w", encoding="ascii") as file:
        file.write("\n".join(many.ways) + "\n")
    sshd = many.running["sshd"].pid
    before, by_sshd, begin = machine(), took(sshd), time.monotonic()
    command = [sys.executable, "-c", MEASURING, sys.executable, f"{lab.TOOLS}/mcaudit-premises", "--watch", "--json",
               "--routers", f"{many.folder}/routers", *words, many.site]
    done = subprocess.run(command, env=many.environment, capture_output=True, text=True, check=False)
    seconds, after = time.monotonic() - begin, machine()
    time.sleep(1)  # sshd waits for what it began
    *said, by_tool = done.stderr.splitlines()
    print(f"{len(many.places)} routers: {seconds:.1f} s; of a processor: the tool and ssh {float(by_tool):.1f} s, sshd "
          f"and the routers {took(sshd) - by_sshd:.1f} s, the whole machine {after[0] - before[0]:.1f} s, stolen "
          f"{after[1] - before[1]:.1f} s")
    return [json.loads(it) for it in done.stdout.splitlines()], said, seconds


def main():
    """Measures once. Returns the status."""
    if os.getuid() or len(sys.argv) < 2 or not os.access(sys.argv[1], os.X_OK):
        raise SystemExit("Usage: many.py PROGRAM [COUNT [WORD ...]], as root")
    many = Many(os.path.abspath(sys.argv[1]), int(sys.argv[2]) if sys.argv[2:] else 256)
    try:
        many.build()
        found, said, seconds = watch(many, sys.argv[3:])
    finally:
        many.clear()
    packets = next(it["packets"] for it in found if "packets" in it)
    print(packets["text"])
    lab.judge("all are read", not said and not any("unjudged" in it for it in found), said)
    lab.judge("the source is idle", (packets["flows"], packets["idle"]) == (1, 1), packets)
    lab.judge("it takes a minute at most", seconds <= MOST, f"{seconds:.1f} s")
    return lab.status_of(lab.PASSED[True], lab.PASSED[False])


if __name__ == "__main__":
    sys.exit(main())
