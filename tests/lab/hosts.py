#!/usr/bin/env python3
"""What hosts ask for, and who else sends to them, on a network of this machine's kernel. What the program and its tools
say is held against what a host gets:

- a group that a host asks for, and that no router forwards and no flow lists: it is named beside the yes, and the
  host gets nothing. Once routers forward it, they are named, and the host gets it; once a flow lists it, it is named
  no more.
- a router that nobody lists sends a flow onto a LAN beside a listed one: the verdict is yes, the host gets each packet
  twice, and mcaudit-premises says where somebody else sends.
- hosts that zap through the groups of a domain of PIM: nothing is called lost, the list of their LAN is gathered all
  the same, and the host that stays gets all of what it is said to get.

  python3 tests/lab/hosts.py PROGRAM [CASE ...]     as root; PROGRAM is the built mcaudit

The network is that of premises.py. The last line counts: N passed, M failed.
"""
import os
import subprocess
import sys
import time

sys.dont_write_bytecode = True
import frr  # noqa: E402 pylint: disable=wrong-import-position
import premises as lab  # noqa: E402

GROUP, SOURCE, MEMBER, ASKED = lab.GROUP, lab.SOURCE, lab.MEMBER, "239.9.9.9"
CHANNELS = [f"239.1.3.{it}" for it in range(1, 9)]
STEADY, ZAPPED = CHANNELS[:2], CHANNELS[2:]
HOSTS = [("m1", "10.88.3.71"), ("m2", "10.88.3.72"), ("m3", "10.88.3.73")]
UNLISTED = [("r9", "eth0", "l1", "10.88.1.9"), ("r9", "eth1", "l2", "10.88.2.9")]
ZAP = """
import random, socket, sys, time
address, groups, rng = socket.inet_aton(sys.argv[1]), sys.argv[2:], random.Random(sys.argv[1])
print("zapping", flush=True)
silent = joins = 0
try:
    while True:
        group = rng.choice(groups)
        one = socket.socket(socket.AF_INET, socket.SOCK_DGRAM)
        one.setsockopt(socket.SOL_SOCKET, socket.SO_REUSEADDR, 1)
        one.bind((group, 5004))
        one.setsockopt(0, socket.IP_ADD_MEMBERSHIP, socket.inet_aton(group) + address)
        one.settimeout(3)
        begin = time.monotonic()
        try:
            one.recv(2048)
        except TimeoutError:
            silent += 1
        joins += 1
        time.sleep(max(0, begin + rng.uniform(1, 3) - time.monotonic()))
        one.close()
except KeyboardInterrupt:
    print(joins, silent)
"""
TRAFFIC = os.path.join(lab.HERE, "traffic.py")


class HostLab(lab.Lab):
    """The network of premises.py, with a router that nobody lists and three hosts more."""

    def __init__(self, program):
        """Takes the program."""
        super().__init__(program, [*UNLISTED, *((name, "eth0", "l3", address) for name, address in HOSTS)])

    def audit(self):
        """Returns the lines that audit prints."""
        done = subprocess.run(["mcaudit", "audit", self.site], env=self.environment, text=True, capture_output=True,
                              check=False)
        return done.stdout.splitlines()

    def count_of(self, *groups):
        """Returns how many of 20 packets the member gets of each group."""
        count = self.begin("count", "member", ["python3", TRAFFIC, "member", MEMBER, "3.5", *groups],
                           stdout=subprocess.PIPE, text=True)
        time.sleep(0.7)
        self.at("source", f"python3 {TRAFFIC} source {SOURCE} 16 20 {' '.join(groups)}")
        found = dict(line.split() for line in count.communicate()[0].splitlines())
        del self.running["count"]
        return [int(found[it]) for it in groups]

    def gather(self, *words):
        """Gathers the list of the last LAN by its router. Returns the status."""
        command = [f"{lab.TOOLS}/mcaudit-reports", "-o", f"{self.site}/igmp-l3", *words, "--by",
                   f"!ip netns exec {self.name}-r3", "eth1"]
        done = subprocess.run(command, env=self.environment, text=True, capture_output=True, check=False)
        print(f"    {done.stdout}{done.stderr}".rstrip(), flush=True)
        return done.returncode

    def list_flows(self, *groups):
        """Has the topology list these groups, and nothing else."""
        flows = ", ".join(f'{{source = "{SOURCE}", group = "{it}", ttl = 16}}' for it in groups)
        self.write("topology", lab.TOPOLOGY[:lab.TOPOLOGY.index("flow = ")] + f"flow = [{flows}]\n")


LAB = None


def judge_asked(name, lines, expected):
    """Judges what is said of groups that are asked for, beside a yes."""
    asked = [it for it in lines if it.startswith("asked ")]
    print(f"{name}: {asked}", flush=True)
    lab.judge(name, asked == expected, f"not {expected}: {lines}")
    lab.judge(name, lines[-1:] == ["verdict yes"], lines)
    summary = next((it for it in lines if it.startswith("summary ")), "")
    lab.judge(name, summary.endswith(f" asked {len(expected)}"), summary)


def try_asked():
    """A host asks for a group that nobody lists."""
    name = "a group that is asked for"
    LAB.begin("host", "member", ["python3", TRAFFIC, "member", MEMBER, "600", GROUP, ASKED])
    time.sleep(1)
    lab.judge(name, LAB.gather("--ask", "--wait", "2") == 0, "no list")
    LAB.collect()
    judge_asked(name, LAB.audit(), [f"asked * {ASKED} lans 1: l3: no router forwards it"])
    lab.judge(name, LAB.count_of(GROUP, ASKED) == [20, 0], "the host gets something else")
    for router in lab.ROUTERS:
        control = f"smcroutectl -i {LAB.name}-{router} -u {LAB.folder}/{router}.sock"
        LAB.at(router, f"{control} add eth0 {SOURCE} {ASKED} eth1")
    LAB.collect()
    judge_asked(f"{name} and forwarded", LAB.audit(), [f"asked * {ASKED} lans 1: l3: forwarded by r1 r2 r3"])
    lab.judge(name, LAB.count_of(GROUP, ASKED) == [20, 20], "forwarded, and the host does not get all")
    LAB.list_flows(GROUP, ASKED)
    LAB.collect()
    judge_asked(f"{name} and listed", LAB.audit(), [])
    LAB.end("host")
    LAB.list_flows(GROUP)


def try_unlisted():
    """A router that nobody lists sends the flow from l1 onto l2, beside r2."""
    name = "an unlisted router"
    LAB.start_router("r9")
    LAB.send()
    LAB.collect()
    lines, count = LAB.audit(), LAB.count()
    found, status, _ = LAB.premises("--watch", "0.5,2,0.5", LAB.site, *LAB.ways)
    found = [it for it in found if it["kind"] == "packets"]
    strict = LAB.premises("--watch", "0.5,2,0.5", "--strict", LAB.site, *LAB.ways)[1]
    print(f"{name}: the member got {count}\n{lab.shown(found)}", end="", flush=True)
    lab.judge(name, lines[-1:] == ["verdict yes"], lines)
    lab.judge(name, count >= 250, "the host gets no packet twice")
    lab.judge(name, lab.finds(found, [("by another vif", "r2: "), ("more come", "r3: ")]), "nobody else is seen")
    lab.judge(name, not any(map(lab.is_sure, found)), "called sure, and packets come")
    lab.judge(name, (status, strict) == (0, 1), f"the status is {status}, with --strict {strict}")
    LAB.end("r9")
    time.sleep(1)
    found = [it for it in LAB.premises("--watch", "0.5,2,0.5", LAB.site, *LAB.ways)[0] if it["kind"] == "packets"]
    lab.judge(name, not found and 140 <= LAB.count() < 160, f"it is gone, and {found}")
    LAB.end("send")


def begin_zapping():
    """Has PIM route, a source send to all channels, one host stay with two of them, and two hosts zap through the
    others."""
    LAB.at("r1", "ip route add 10.88.2.0/23 via 10.88.1.2")
    LAB.at("r2", "ip route add 10.88.3.0/24 via 10.88.2.3")
    for router in lab.ROUTERS:
        LAB.end(router)  # its smcroute
        frr.start(LAB, router, "10.88.1.2", frr.IGMP * (router == "r1"), frr.IGMP * (router == "r3"))
    for name, _ in HOSTS:
        LAB.at(name, "ip route add default via 10.88.3.3")
    LAB.begin("steady", "member", ["python3", TRAFFIC, "member", MEMBER, "999", *STEADY])
    LAB.begin("channels", "source", ["python3", TRAFFIC, "source", SOURCE, "16", "99999", *CHANNELS])
    time.sleep(12)
    for name, address in HOSTS[1:]:
        LAB.begin(name, name, ["python3", "-c", ZAP, address, *ZAPPED], stdout=subprocess.PIPE, text=True)
    time.sleep(4)
    LAB.list_flows(*CHANNELS)


def end_zapping(name):
    """Ends the hosts that zap: of nearly each group that one joined a packet came within three seconds."""
    for host, _ in HOSTS[1:]:
        process = LAB.running.pop(host)
        process.send_signal(2)
        joins, silent = map(int, process.communicate()[0].split()[1:])
        print(f"{name}: {host} joined {joins} times, and nothing came {silent} times", flush=True)
        lab.judge(name, joins >= 8 and 10 * silent <= joins, "hosts that zap get nothing, so that PIM is not well here")


def try_zapping(runs=3):
    """Hosts zap, and nothing is called lost; the list of their LAN is gathered, and says what the host that stays
    gets."""
    name = "hosts that zap"
    begin_zapping()
    for _ in range(runs):
        lab.judge(name, LAB.gather("--fold", "--wait", "15") == 0, "no list while hosts zap")
        LAB.forget_sets()
        LAB.collect()
        lines = LAB.audit()
        found, _, printed = LAB.premises("--watch", "1,3,1", LAB.site, *LAB.ways)
        found = [it for it in found if it["finding"] not in ("not known", "beside")]
        print(f"{name}: {lines[-1:]} {printed[-2]['packets']}\n{lab.shown(found)}", end="", flush=True)
        lab.judge(name, not found, "an alarm, and all is well")
        for group in STEADY:
            flow = f"flow {SOURCE} {group} ttl 16 yes copies 4"
            place = lines.index(flow) if flow in lines else None
            lab.judge(name, place is not None and lines[place + 1] == "  wanted 1: l3", f"{group} isn't right: {lines}")
    count = LAB.begin("count", "m1", ["python3", TRAFFIC, "member", HOSTS[0][1], "4", *STEADY], stdout=subprocess.PIPE,
                      text=True).communicate()[0]
    del LAB.running["count"]
    lab.judge(name, all(int(it.split()[1]) >= 30 for it in count.splitlines()), f"in 4 s a host gets {count}")
    end_zapping(name)


def main():
    """Tries all, or some. Returns the status."""
    global LAB  # pylint: disable=global-statement
    if os.getuid() or len(sys.argv) < 2 or not os.access(sys.argv[1], os.X_OK):
        raise SystemExit("Usage: hosts.py PROGRAM [CASE ...], as root")
    LAB = lab.LAB = HostLab(os.path.abspath(sys.argv[1]))
    try:
        LAB.build()
        for name, function in (("asked", try_asked), ("unlisted", try_unlisted), ("zapping", try_zapping)):
            if len(sys.argv) == 2 or name in sys.argv[2:]:
                function()
    finally:
        LAB.clear()
    return lab.status_of(lab.PASSED[True], lab.PASSED[False])


if __name__ == "__main__":
    sys.exit(main())
