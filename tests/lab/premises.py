#!/usr/bin/env python3
"""Hidden faults on a network of this machine's kernel: the tables are right and `mcaudit audit` says yes, while
something else drops the packets. A host counts what comes, and mcaudit-premises is held against that: by the facts of a
folder, by the counters now, and by the counters of four sets. Nothing that it calls `drops` or `none comes` may arrive,
nothing that doesn't arrive may go unnamed, and where it prints a line that ends a fault that line is run and the host
gets all.

  python3 tests/lab/premises.py PROGRAM [--ssh] [CASE ...]     as root; PROGRAM is the built mcaudit

With --ssh the routers are read by ssh, from an sshd that is started for that.

  source 10.88.0.50 -- l0 -- r1 -- l1 -- r2 -- l2 -- r3 -- l3 -- member 10.88.3.77
                              \\--- lx ---/

The routers run smcroute. The last line counts: N passed, M failed.
"""
import json
import os
import shutil
import subprocess
import sys
import tempfile
import time

HERE = os.path.dirname(os.path.abspath(__file__))
TOOLS = os.path.join(HERE, "..", "..", "tools")
sys.path.append(os.path.join(HERE, ".."))
from ended import status_of  # noqa: E402 pylint: disable=wrong-import-position

SOURCE, GROUP, MEMBER = "10.88.0.50", "239.1.2.3", "10.88.3.77"
PORTS = [("source", "eth0", "l0", SOURCE), ("r1", "eth0", "l0", "10.88.0.1"), ("r1", "eth1", "l1", "10.88.1.1"),
         ("r1", "eth2", "lx", "10.88.9.1"), ("r2", "eth0", "l1", "10.88.1.2"), ("r2", "eth1", "l2", "10.88.2.2"),
         ("r2", "eth2", "lx", "10.88.9.2"), ("r3", "eth0", "l2", "10.88.2.3"), ("r3", "eth1", "l3", "10.88.3.3"),
         ("member", "eth0", "l3", MEMBER)]
ROUTERS = "r1", "r2", "r3"
ROUTER = f"phyint eth0 enable\nphyint eth1 enable\nmroute from eth0 source {SOURCE} group {GROUP} to eth1\n"
TRAFFIC = f"""
import socket, sys, time
kind, seconds, size, ttl, part = sys.argv[1], float(sys.argv[2]), int(sys.argv[3]), int(sys.argv[4]), sys.argv[5]
rate = float(sys.argv[6])
end, count = time.monotonic() + seconds, 0
one = socket.socket(socket.AF_INET, socket.SOCK_DGRAM)
if kind == "send":
    one.setsockopt(0, socket.IP_MULTICAST_TTL, ttl)
    one.setsockopt(0, socket.IP_MULTICAST_IF, socket.inet_aton("{SOURCE}"))
    one.bind(("{SOURCE}", 0))
    if part == "nodf":
        one.setsockopt(0, 10, 0)
    begin = time.monotonic()
    while time.monotonic() < end:
        for _ in range(int(part) if part.isdigit() else 1):
            try:
                one.sendto(b"x" * size, ("{GROUP}", 5004))
            except OSError:
                pass
            count += 1
        time.sleep(max(0, begin + count / rate - time.monotonic()))
else:
    one.bind(("{GROUP}", 5004))
    one.setsockopt(0, socket.IP_ADD_MEMBERSHIP, socket.inet_aton("{GROUP}") + socket.inet_aton("{MEMBER}"))
    while (left := end - time.monotonic()) > 0:
        one.settimeout(left)
        try:
            one.recv(4096)
            count += 1
        except OSError:
            break
    print(count)
"""
TOPOLOGY = f"""version = 1
lans = ["l0", "l1", "l2", "l3", "lx"]
router = [{{name = "r1"}}, {{name = "r2"}}, {{name = "r3"}}]
interface = [
{"".join(f'{{router = "{place}", device = "{device}", lan = "{lan}"}},' + chr(10) for place, device, lan, _ in PORTS
         if place in ROUTERS)}]
source = [{{address = "{SOURCE}", lan = "l0"}}]
flow = [{{source = "{SOURCE}", group = "{GROUP}", ttl = 16}}]
"""
PASSED, CASES = {True: 0, False: 0}, []
FORWARD = "add chain inet f forward { type filter hook forward priority 0; policy %s; }"
DOCKER = ("-P FORWARD DROP", "-N DOCKER-USER", "-A FORWARD -j DOCKER-USER",
          "-A FORWARD -o docker0 -m conntrack --ctstate RELATED,ESTABLISHED -j ACCEPT",
          "-A FORWARD -i docker0 ! -o docker0 -j ACCEPT", "-A DOCKER-USER -j RETURN")


def run(words, check=True, **how):
    """Runs a command, words or a line of the shell. Returns what it printed."""
    done = subprocess.run(words, shell=isinstance(words, str), text=True, capture_output=True, check=False, **how)
    if check and done.returncode:
        raise SystemExit(f"lab: {words}: {done.returncode} {done.stderr}{done.stdout}")
    return done.stdout


class Lab:
    """The network."""

    def __init__(self, program, ports=()):
        """Takes the program, and where there are further places, their ports."""
        self.name, self.folder, self.running = f"mcp{os.getpid()}", tempfile.mkdtemp(), {}
        self.set_ports([*PORTS, *ports])
        self.site = os.path.join(self.folder, "site")
        self.environment = {**os.environ, "PATH": f"{os.path.dirname(program)}:{os.environ['PATH']}"}
        self.ways = [f"{it}=!ip netns exec {self.name}-{it}" for it in ROUTERS]

    def set_ports(self, ports):
        """Takes the ports, each of a place, with its device, its LAN and its address."""
        self.ports = ports
        self.places = ["lans", *dict.fromkeys(place for place, *_ in ports)]

    def at(self, place, line, check=True):
        """Runs a line of the shell at a place."""
        return run(["ip", "netns", "exec", f"{self.name}-{place}", "sh", "-c", line], check)

    def join(self, place, device, lan, address):
        """Joins a place to a LAN, which is made if it isn't there."""
        self.at("lans", f"ip link show {lan} > /dev/null 2>&1 || ip link add {lan} type bridge mcast_snooping 0; "
                f"ip link set {lan} up; ip link add {place}-{device} type veth peer name {device} netns "
                f"{self.name}-{place}; ip link set {place}-{device} master {lan} up")
        self.at(place, f"ip link set {device} up; ip address add {address}/24 dev {device}")

    def join_places(self):
        """Makes the places, and joins them to their LANs."""
        for place in self.places:
            run(f"ip netns add {self.name}-{place}")
            self.at(place, "ip link set lo up; "
                    "for it in all default; do echo 0 > /proc/sys/net/ipv4/conf/$it/rp_filter; done")
        for port in self.ports:
            self.join(*port)

    def build_network(self):
        """Makes the places and the LANs, and the routes between them."""
        self.join_places()
        self.at("r2", "ip route add 10.88.0.0/24 via 10.88.1.1")
        self.at("r3", "ip route add 10.88.0.0/16 via 10.88.2.2")
        self.at("source", "ip route add default via 10.88.0.1")

    def build(self):
        """Builds the network, starts the routers and makes the folder."""
        self.build_network()
        for router in ROUTERS:
            self.start_router(router)
        self.make_site()

    def make_site(self):
        """Makes the folder, whose tables are collected later."""
        os.mkdir(self.site)
        for lan in ("l0", "l1", "l2", "lx"):
            self.write(f"igmp-{lan}", "")
        self.write("topology", TOPOLOGY)
        run([f"{TOOLS}/mcaudit-reports", "--static", GROUP, "-o", f"{self.site}/igmp-l3"])

    def write(self, name, text):
        """Writes a file of the site."""
        with open(os.path.join(self.site, name), "w", encoding="ascii") as file:
            file.write(text)

    def start_router(self, router, lines=ROUTER):
        """Starts smcroute on a router by these lines, and waits for its rows."""
        own = f"{self.folder}/{router}"
        with open(f"{own}.conf", "w", encoding="ascii") as file:
            file.write(lines)
        self.begin(router, router, ["smcrouted", "-n", "-N", "-f", f"{own}.conf", "-i", f"{self.name}-{router}", "-P",
                                    f"{own}.pid", "-u", f"{own}.sock"])
        for _ in range(50):
            if self.at(router, "cat /proc/net/ip_mr_cache").count("\n") > lines.count("mroute"):
                return
            time.sleep(0.1)
        raise SystemExit(f"lab: smcroute on {router} has no row")

    def begin_ssh(self, routers=ROUTERS):
        """Starts an sshd, by which the routers are read from now on, many at once too. Its shells have a home of their
        own: what the `.bashrc` of root begins here is none of a router's."""
        os.makedirs("/run/sshd", exist_ok=True)
        port, own = 20000 + os.getpid() % 10000, self.folder
        for name in ("host", "user"):
            run(["ssh-keygen", "-q", "-t", "ed25519", "-N", "", "-f", f"{own}/{name}"])
        with open(f"{own}/sshd", "w", encoding="ascii") as file:
            file.write(f"Port {port}\nListenAddress 127.0.0.1\nHostKey {own}/host\nAuthorizedKeysFile {own}/user.pub\n"
                       f"PermitRootLogin yes\nStrictModes no\nUsePAM no\nPidFile {own}/sshd.pid\n"
                       f"MaxStartups 1000\nSetEnv HOME={own}\n")
        self.running["sshd"] = subprocess.Popen(["/usr/sbin/sshd", "-D", "-f", f"{own}/sshd"],
                                                stderr=subprocess.DEVNULL)
        ssh = (f"ssh -p {port} -i {own}/user -o BatchMode=yes -o StrictHostKeyChecking=no -o LogLevel=ERROR "
               "-o UserKnownHostsFile=/dev/null -o ConnectTimeout=10 -o ConnectionAttempts=5 127.0.0.1")
        self.ways = [f"{it}=!{ssh} ip netns exec {self.name}-{it}" for it in routers]

    def begin(self, name, place, words, **how):
        """Begins a command at a place."""
        how = {"stdout": subprocess.DEVNULL, "stderr": subprocess.DEVNULL, **how}
        self.running[name] = subprocess.Popen(["ip", "netns", "exec", f"{self.name}-{place}", *words], **how)
        return self.running[name]

    def end(self, name):
        """Ends a command."""
        process = self.running.pop(name, None)
        if process:
            process.terminate()
            process.wait()

    def clear(self):
        """Takes all away."""
        for name in list(self.running):
            self.end(name)
        for place in self.places:
            run(["ip", "netns", "del", f"{self.name}-{place}"], False)
        shutil.rmtree(self.folder, ignore_errors=True)

    def send(self, size=200, ttl=16, part="1", rate=100):
        """Begins to send so many packets a second, in bursts of so many where part is a number."""
        self.end("send")
        words = ["python3", "-c", TRAFFIC, "send", "999", str(size), str(ttl), part, str(rate)]
        self.begin("send", "source", words)
        time.sleep(0.3)

    def count(self):
        """Returns how many packets the member gets in 1.5 seconds."""
        words = ["python3", "-c", TRAFFIC, "member", "1.5", "0", "0", "", "0"]
        with self.begin("count", "member", words, stdout=subprocess.PIPE, text=True) as process:
            printed = process.communicate()[0]
        del self.running["count"]
        return int(printed)

    def collect(self, ways=None):
        """Makes a new set, with facts."""
        run([f"{TOOLS}/mcaudit-collect", "--adopt", "--facts", "--pause", "0", "--readings", "9", self.site,
             *(ways or self.ways)], env=self.environment)

    def forget_sets(self):
        """Removes the sets before the current one."""
        current = os.path.basename(os.path.realpath(self.site))
        folder = f"{self.site}.sets"
        for name in os.listdir(folder) if os.path.isdir(folder) else ():
            if name != current:
                shutil.rmtree(os.path.join(folder, name))

    def premises(self, *words):
        """Returns what mcaudit-premises finds, and its status."""
        done = subprocess.run([f"{TOOLS}/mcaudit-premises", "--json", *words], env=self.environment, text=True,
                              capture_output=True, check=False)
        if done.returncode not in (0, 1):
            raise SystemExit(f"lab: mcaudit-premises: {done.returncode} {done.stderr}")
        lines = [json.loads(it) for it in done.stdout.splitlines()]
        return [it for it in lines if "finding" in it], done.returncode, lines


LAB = None


def hidden(name, fault, mending, facts=(), watch=(), **how):
    """Adds a case: what the facts and the counters have to find, each a word, and a text that it has."""
    CASES.append((name, fault, mending, facts, watch, how))


def do(lines):
    """Runs lines, each at a place."""
    for line in lines.split("\n") if lines else ():
        place, _, words = line.strip().partition(": ")
        LAB.at(place, words)


def shown(findings):
    """Returns what was found as lines."""
    return "".join(f"    {it['finding']}: {it['router']}: {it['text']}\n" for it in findings)


def finds(findings, wanted):
    """Whether all that is wanted is among what was found, each a word and a text of it."""
    return all(any(it["finding"] == word and text in f"{it['router']}: {it['text']}" for it in findings)
               for word, text in wanted)


def judge(name, is_good, text):
    """Counts a check, and tells of one that failed."""
    PASSED[bool(is_good)] += 1
    if not is_good:
        print(f"failed: {name}: {text}", flush=True)


def is_sure(it):
    """Whether what was found says that packets of the flow don't come on."""
    return it["finding"] in ("drops", "none comes")


def try_case(name, fault, mending, facts, watch, how):
    """Tries a case."""
    do(fault)
    LAB.send(how.get("size", 200), how.get("ttl", 16), how.get("part", "1"))
    time.sleep(how.get("settle", 0))
    count = LAB.count()
    LAB.forget_sets()
    LAB.collect(how.get("ways"))
    if "size" in how:
        time.sleep(1)
        LAB.collect(how.get("ways"))
    by_facts, _, _ = LAB.premises(LAB.site)
    by_counters, status, _ = LAB.premises("--watch", how.get("pauses", "0.5,2,0.5"), LAB.site, *LAB.ways)
    by_counters = [it for it in by_counters if it["kind"] == "packets"]
    print(f"{name}: the member got {count}\n{shown(by_facts)}{shown(by_counters)}", end="", flush=True)
    for found, wanted in ((by_facts, facts), (by_counters, watch)):
        judge(name, finds(found, wanted), f"not found: {wanted}")
        judge(name, count == 0 or not any(map(is_sure, found)), "called sure, and packets come")
    worth = [it for it in by_facts + by_counters if it["finding"] not in ("not known",)]
    judge(name, count >= 100 or worth, "packets don't come, and nothing is found")
    judge(name, count < 140 or how.get("is_doubtful") or not worth, "all packets come, and something is found")
    judge(name, status == int(any(it["finding"] in ("drops", "none comes", "lost") for it in by_facts + by_counters)),
          f"the status is {status}")
    for it in by_facts:
        if it["finding"] == "drops" and it.get("remedy") and not how.get("is_kept"):
            print(f"    {it['router']}$ {it['remedy']}")
            LAB.at(it["router"], it["remedy"])
    if any(it["finding"] == "drops" and it.get("remedy") for it in by_facts):
        time.sleep(how.get("settle", 0))
        again = LAB.count()
        judge(name, again > 100, f"after the lines that end it {again} packets come")
    do(mending)
    time.sleep(how.get("settle", 0))


def strict(value, every=0, router="r2", device="eth0"):
    """Returns the line that sets the reverse path filter."""
    return (f"{router}: echo {every} > /proc/sys/net/ipv4/conf/all/rp_filter; "
            f"echo {value} > /proc/sys/net/ipv4/conf/{device}/rp_filter")


def nft(*lines):
    """Returns the line that sets rules of nftables on r2."""
    return "r2: nft flush ruleset" + "".join(f"; nft '{it}'" for it in lines)


AWAY = "r2: ip route replace 10.88.0.0/24 via 10.88.9.1"
BACK = strict(0) + "\nr2: ip route flush root 10.88.0.0/24; ip route replace 10.88.0.0/24 via 10.88.1.1; " \
    "ip route flush cache"
NO_RULES = "r2: nft flush ruleset"
DROPS_RPF = [("drops", "r2: rp_filter")]
NONE_RPF = [("none comes", "r2 drops them by rp_filter")]
NONE_FORWARD = [("none comes", "netfilter, FORWARD or POSTROUTING")]


def add_reverse():
    """Adds the cases of the reverse path filter."""
    hidden("healthy", "", "")
    hidden("strict, the route is by eth0", strict(1), BACK)
    hidden("strict, the route is by eth2", f"{strict(1)}\n{AWAY}", BACK, DROPS_RPF, NONE_RPF)
    hidden("loose, the route is by eth2", f"{strict(2)}\n{AWAY}", BACK)
    hidden("all 1, device 0, the route is by eth2", f"{strict(0, 1)}\n{AWAY}", BACK, DROPS_RPF, NONE_RPF)
    hidden("all 1, device 2, the route is by eth2", f"{strict(2, 1)}\n{AWAY}", BACK)
    hidden("loose, eth0 has no address, the route is by eth2",
           f"{strict(2)}\n{AWAY}\nr2: ip address del 10.88.1.2/24 dev eth0",
           "r2: ip address add 10.88.1.2/24 dev eth0\n" + BACK, [("drops", "eth0 has no IPv4 address")], NONE_RPF)
    hidden("loose, no route", f"{strict(2)}\nr2: ip route del 10.88.0.0/24", BACK, DROPS_RPF, NONE_RPF)
    for kind in ("blackhole", "unreachable", "prohibit"):
        hidden(f"loose, a route that is {kind}",
               f"{strict(2)}\nr2: ip route del 10.88.0.0/24; ip route add {kind} 10.88.0.0/24",
               f"r2: ip route del {kind} 10.88.0.0/24; ip route flush root 10.88.0.0/24\n" + BACK, DROPS_RPF, NONE_RPF)
    hidden("strict, by two next hops", f"{strict(1)}\nr2: ip route replace 10.88.0.0/24 nexthop via 10.88.9.1 "
           "nexthop via 10.88.1.1", BACK)
    hidden("strict, by a rule's table", f"{strict(1)}\n{AWAY}\nr2: ip route add 10.88.0.0/24 via 10.88.1.1 table 77; "
           "ip rule add to 10.88.0.0/24 lookup 77",
           "r2: ip rule del to 10.88.0.0/24 lookup 77; ip route flush table 77\n" + BACK)
    hidden("strict on the first router, whose own LAN the source is on", strict(1, router="r1"), strict(0, router="r1"))
    hidden("the source's address is local", f"r2: ip address add {SOURCE}/32 dev lo",
           f"r2: ip address del {SOURCE}/32 dev lo; echo 0 > /proc/sys/net/ipv4/conf/eth0/accept_local",
           [("drops", "one of its own addresses")], [("none comes", "one of r2's own")])


def add_filters():
    """Adds the cases of netfilter."""
    table, drop = "add table inet f", FORWARD % "drop"
    forward = [("drops", "nft inet f forward")]
    for name, rules, facts in (
            ("nft's policy drops", (table, drop), forward),
            ("policy drop, 239/8 accepted", (table, drop, "add rule inet f forward ip daddr 239.0.0.0/8 accept"), ()),
            ("policy drop, established accepted",
             (table, drop, "add rule inet f forward ct state established,related accept"), forward),
            ("policy drop, new accepted", (table, drop, "add rule inet f forward ct state new counter accept"), ()),
            ("policy drop, eth0 to eth1 accepted",
             (table, drop, 'add rule inet f forward iifname "eth0" oifname "eth1" accept'), ()),
            ("a set has the group", (table, FORWARD % "accept",
                                     "add set inet f bad { type ipv4_addr; elements = { 239.1.2.3 }; }",
                                     "add rule inet f forward ip daddr @bad drop"), forward),
            ("a chain rejects udp", (table, FORWARD % "accept", "add chain inet f c", "add rule inet f forward jump c",
                                     "add rule inet f c meta l4proto udp reject"), forward),
            ("a map drops eth1", (table, FORWARD % "accept",
                                  'add rule inet f forward oifname vmap { "eth1" : drop, "eth2" : accept }'), forward)):
        hidden(name, nft(*rules), NO_RULES, facts, NONE_FORWARD if facts else ())
    hidden("a port is dropped", nft(table, FORWARD % "accept", "add rule inet f forward udp dport 5004 drop"), NO_RULES,
           [("may drop", "nft inet f forward")], NONE_FORWARD)
    hidden("another port is dropped", nft(table, FORWARD % "accept", "add rule inet f forward udp dport 9999 drop"),
           NO_RULES, [("may drop", "nft inet f forward")], is_doubtful=True)
    chain = "add chain ip m %s { type filter hook %s priority %d; }"
    hidden("prerouting drops", nft("add table ip m", chain % ("pre", "prerouting", -300),
                                   "add rule ip m pre ip saddr 10.88.0.0/24 drop"), NO_RULES,
           [("drops", "nft ip m pre")], [("none comes", "netfilter PREROUTING")])
    hidden("postrouting drops", nft("add table ip m", chain % ("post", "postrouting", 0),
                                    'add rule ip m post oifname "eth1" ip daddr 224.0.0.0/4 drop'), NO_RULES,
           [("drops", "nft ip m post")], NONE_FORWARD)
    ingress = "add chain netdev n i { type filter hook ingress device %s priority 0; policy drop; }"
    hidden("ingress of eth0 drops", nft("add table netdev n", ingress % "eth0"), NO_RULES,
           [("drops", "nft netdev n i (ingress)")], [("none comes", "an ingress chain of nft")])
    hidden("ingress of eth2 drops", nft("add table netdev n", ingress % "eth2"), NO_RULES)
    for program in ("iptables-nft", "iptables-legacy"):
        hidden(f"Docker's rules by {program}", "r2: " + "; ".join(f"{program} {it}" for it in DOCKER),
               f"r2: {program} -P FORWARD ACCEPT; {program} -F; {program} -X", [("drops", "filter FORWARD")],
               NONE_FORWARD)
    hidden("the last router's FORWARD drops", "r3: iptables -P FORWARD DROP",
           "r3: iptables -P FORWARD ACCEPT; iptables -F",
           [("drops", "r3: iptables filter FORWARD")], [("lost", "r3: its vifs count")])


def add_links():
    """Adds the cases of links, sizes, tables and switches."""
    hidden("eth0 has no carrier", "lans: ip link set r2-eth0 down", "lans: ip link set r2-eth0 up",
           [("drops", "r2: eth0 (in) has no carrier")], [("none comes", "")], settle=1)
    hidden("eth1 is down", "r2: ip link set eth1 down", "r2: ip link set eth1 up",
           [("drops", "r2: eth1 (out) is down")], [("none comes", "r2 did not send them by eth1")], settle=1)
    hidden("eth1 has no carrier", "lans: ip link set r2-eth1 down", "lans: ip link set r2-eth1 up",
           [("drops", "r2: eth1 (out) has no carrier")], [("none comes", "")], settle=1)
    hidden("the last LAN has no carrier", "lans: ip link set r3-eth1 down", "lans: ip link set r3-eth1 up",
           [("drops", "r3: eth1 (out) has no carrier")], [("lost", "r3: eth1: its vif counts")], settle=1)
    hidden("eth1's MTU is too small", "r2: ip link set eth1 mtu 1200", "r2: ip link set eth1 mtu 1500",
           [("may drop", "r2: its packets have 1428 bytes")], [("none comes", "r2 did not send them by eth1")],
           size=1400)
    hidden("eth1's MTU cuts packets in pieces", "r2: ip link set eth1 mtu 1200", "r2: ip link set eth1 mtu 1500",
           [("may drop", "r2: its packets have 1428 bytes")], [("more come", "cut in pieces by r2")], size=1400,
           part="nodf", is_doubtful=True)
    hidden("packets of TTL 2", "", "", (), [("none comes", "r2 did not send them by eth1")], ttl=2)
    hidden("packets of TTL 3", "", "", (), [("lost", "r3: eth1: its entries made")], ttl=3)
    hidden("mrule prohibits", "r2: ip mrule add iif eth0 prohibit",
           "r2: ip mrule del iif eth0 prohibit 2> /dev/null; true",
           [("drops", "r2: ip mrule: ")], [("none comes", "ip mrule, VRF")])
    hidden("mrule to a table that isn't there", "r2: ip mrule add iif eth0 lookup 88",
           "r2: ip mrule del iif eth0 lookup 88", [("beside", "r2: ip mrule: ")], is_doubtful=True)
    hidden("eth0 is a port of a bridge",
           "r2: ip link add brx type bridge; ip link set brx up; ip link set eth0 master brx",
           "r2: ip link set eth0 nomaster; ip link del brx", [("drops", "r2: eth0 (in) is a port of the bridge brx")],
           [("none comes", "")], settle=1)
    hidden("the switch of l1 keeps it from r2",
           "lans: bridge link set dev r2-eth0 mcast_flood off; ip link set l1 type bridge mcast_snooping 1",
           "lans: bridge link set dev r2-eth0 mcast_flood on; ip link set l1 type bridge mcast_snooping 0", (),
           [("none comes", "a switch that snoops")], settle=1)
    hidden("each second packet is lost", nft("add table ip q",
                                             "add chain ip q f { type filter hook forward priority 0; }",
                                             "add rule ip q f numgen inc mod 2 == 0 drop"), NO_RULES,
           [("may drop", "nft ip q f")], [("lost", "r2")], pauses="0.3,3,0.3", is_doubtful=True)
    hidden("each twentieth packet is lost", nft("add table ip q",
                                                "add chain ip q f { type filter hook forward priority 0; }",
                                                "add rule ip q f numgen inc mod 20 == 0 drop"), NO_RULES,
           [("may drop", "nft ip q f")], [("lost", "r2")], pauses="0.2,20,0.2", is_doubtful=True)
    hidden("bursts", "", "", part="100", pauses="1,3,1")


def try_sets():
    """Four sets in a row find a flow that does not come, without any other reading."""
    name = "four sets"
    do(f"{strict(1)}\n{AWAY}")
    LAB.send()
    for number in range(4):
        time.sleep(1.1)
        LAB.collect()
    found, status, lines = LAB.premises(LAB.site)
    print(f"{name}: {lines[-2]}\n{shown(found)}", end="")
    judge(name, finds(found, NONE_RPF), "not found by the sets")
    judge(name, status == 1, f"the status is {status}")
    do(BACK)
    for number in range(4):
        time.sleep(1.1)
        LAB.collect()
    found, status, lines = LAB.premises(LAB.site)
    print(f"{name}, mended: {lines[-2]}\n{shown(found)}", end="")
    judge(name, status == 0 and not any(it["kind"] == "packets" for it in found),
          f"found after it was mended, {status}")


def try_idle():
    """A source that sends nothing: its flow is idle, and nothing is found."""
    LAB.end("send")
    found, status, lines = LAB.premises("--watch", "0.5,2,0.5", LAB.site, *LAB.ways)
    found = [it for it in found if it["kind"] == "packets"]
    print(f"an idle source: {lines[-2]['packets']}\n{shown(found)}", end="")
    judge("an idle source", lines[-2]["packets"]["idle"] == 1 and lines[-2]["packets"]["come"] == 0, lines[-2])
    judge("an idle source", status == 0 and not found, f"found, status {status}")


def try_healthy(runs=3):
    """A flow that comes whole, steady, in bursts, slow or fast, and while its row is taken out and put in again, gives
    no alarm by the counters."""
    control = f"smcroutectl -u {LAB.folder}/r2.sock"
    again = (f"while :; do {control} remove eth0 {SOURCE} {GROUP}; {control} add eth0 {SOURCE} {GROUP} eth1; "
             "sleep 1.7; done")
    for name, rate, part, is_again in (
            ("steady", 100, "1", False), ("slow", 1, "1", False), ("fast", 5000, "50", False),
            ("in bursts each 3 s", 100, "300", False), ("in long bursts", 100, "500", False),
            ("of a row that comes and goes", 100, "1", True)):
        LAB.send(part=part, rate=rate)
        if is_again:
            LAB.begin("again", "r2", ["sh", "-c", again])
        for _ in range(runs):
            found, _, lines = LAB.premises("--watch", "1,3,1", LAB.site, *LAB.ways)
            found = [it for it in found if it["kind"] == "packets"]
            print(f"a flow {name}: {lines[-2]['packets']}\n{shown(found)}", end="", flush=True)
            judge(f"a flow {name}", not found, "an alarm, and all is well")
        LAB.end("again")


def main():
    """Tries all, or some. Returns the status."""
    global LAB  # pylint: disable=global-statement
    is_by_ssh = "--ssh" in sys.argv
    sys.argv = [it for it in sys.argv if it != "--ssh"]
    if os.getuid() or len(sys.argv) < 2 or not os.access(sys.argv[1], os.X_OK):
        raise SystemExit("Usage: premises.py PROGRAM [--ssh] [CASE ...], as root")
    LAB = Lab(os.path.abspath(sys.argv[1]))
    add_reverse()
    add_filters()
    add_links()
    try:
        LAB.build()
        if is_by_ssh:
            LAB.begin_ssh()
        for it in CASES:
            if len(sys.argv) == 2 or it[0] in sys.argv[2:]:
                try_case(*it)
        for name, function in (("four sets", try_sets), ("an idle source", try_idle), ("healthy flows", try_healthy)):
            if len(sys.argv) == 2 or name in sys.argv[2:]:
                function()
    finally:
        LAB.clear()
    return status_of(PASSED[True], PASSED[False])


if __name__ == "__main__":
    sys.exit(main())
