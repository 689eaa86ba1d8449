#!/usr/bin/env python3
"""Runs the commands of docs/GUIDE.md that need routers, on a network of this machine's kernel, and compares what they
print with what the guide shows.

  python3 tests/lab/guide.py PROGRAM [NAME ...]     as root; PROGRAM is the built mcaudit

Each block of such commands has a line before it, `<!-- needs routers: NAME -->`, and NAME is below, with what the
network is like when they run. Routers are asked side by side, so the lines of a command are compared in any order;
times, ages, rates and the names of sets are compared as such, and not by their numbers. `ssh` is one that runs its
command in a router's network namespace, and the tools wait 20 s for a query in place of 260.

  source 10.0.0.5 -- studio -- r1 -- core -- r2 -- hall -- member 10.0.2.7

The routers run smcroute, and for one block FRR. The last line counts the commands: N passed, M failed.
"""
import json
import os
import re
import shutil
import signal
import subprocess
import sys
import time

sys.dont_write_bytecode = True
import frr  # noqa: E402 pylint: disable=wrong-import-position
import premises as lab  # noqa: E402

TOP = os.path.join(lab.HERE, "..", "..")
sys.path.append(os.path.join(TOP, "tests", "docs"))
from blocks import commands_of  # noqa: E402 pylint: disable=wrong-import-position

BLOCK = re.compile(r"^<!-- needs routers: (\w+) -->\n```console\n(.*?)^```$", re.M | re.S)
SITES = os.path.join(TOP, "tests", "docs", "sites")
SOURCE, OTHER, MEMBER = "10.0.0.5", "10.0.0.6", "10.0.2.7"
PORTS = [("source", "eth0", "studio", SOURCE), ("r1", "eth0", "studio", "10.0.0.1"), ("r1", "eth1", "core", "10.0.1.1"),
         ("r2", "eth0", "core", "10.0.1.2"), ("r2", "eth1", "hall", "10.0.2.2"), ("member", "eth0", "hall", MEMBER)]
ROUTERS = "r1", "r2"
ROUTE = f"mroute from eth0 source {SOURCE} group 239.1.2.3 to eth1\n"
PLAIN = "phyint eth0 enable\nphyint eth1 enable\n" + ROUTE
BOTH = PLAIN.replace("to eth1", "to eth1 eth2")
TRAFFIC = os.path.join(lab.HERE, "traffic.py")
# What is compared as such, and not by its numbers.
NUMBERS = [(r"20\d{6}T\d{6}Z", "TIME"), (r"\d+ (?:s|min|h)(?: to \d+ (?:s|min|h))? (?:old|ago)", "AGE"),
           (r"\d+(?:\.\d+)? s\b", "N s"), (r"\(\d of 4 sets", "(N of 4 sets"), (r"\d+ packets", "N packets"),
           (r"\(\d+\)", "(N)"), (r"\d+ % or more", "N % or more")]
SSH = """#!/bin/sh
# Runs the command that ssh is given at the router that its address names.
while :; do case $1 in -o) shift 2 ;; -*) shift ;; *) break ;; esac; done
router=r${{1##*.}}
shift
[ "$1" != sudo ] || shift 2
PATH={folder}/$router-bin:{folder}/programs exec ip netns exec {name}-"$router" "$@"
"""
VTYSH = "#!/bin/sh\nexec /usr/bin/vtysh --vty_socket {folder} \"$@\"\n"
SCENES = {}


def scene(function):
    """Makes a function that of a block, by its name."""
    SCENES[function.__name__] = function
    return function


class Guide(lab.Lab):
    """The network, and the folder in which the guide's commands run."""

    def __init__(self, program):
        """Takes the program."""
        super().__init__(program)
        self.set_ports(PORTS)
        self.here = os.path.join(self.folder, "here")
        self.environment["PATH"] = f"{self.folder}/bin:{lab.TOOLS}:{self.environment['PATH']}"

    def build(self):
        """Builds the network, and makes the commands by which routers are reached."""
        self.join_places()
        self.at("r1", "ip route add 10.0.2.0/24 via 10.0.1.2")
        self.at("r2", "ip route add 10.0.0.0/24 via 10.0.1.1")
        self.at("source", f"ip route add default via 10.0.0.1; ip address add {OTHER}/24 dev eth0")
        self.at("member", "ip route add default via 10.0.2.2")
        for name in ("here", "bin", "programs", "r1-bin", "r2-bin"):
            os.mkdir(f"{self.folder}/{name}")
        self.write_program("bin/ssh", SSH.format(folder=self.folder, name=self.name))
        for folder in ("/usr/sbin", "/usr/bin", "/sbin", "/bin"):
            for name in os.listdir(folder):
                if name != "vtysh" and not os.path.lexists(f"{self.folder}/programs/{name}"):
                    os.symlink(f"{folder}/{name}", f"{self.folder}/programs/{name}")
        self.forward()
        self.begin("send", "source", ["python3", TRAFFIC, "source", SOURCE, "8", "99999", "239.1.2.3"])
        self.begin("join", "member", ["python3", TRAFFIC, "member", MEMBER, "99999", "239.1.2.3"])

    def begin_queries(self):
        """Has the routers ask the hosts of studio and hall."""
        for router, device in (("r1", "eth0"), ("r2", "eth1")):
            self.begin(f"{router}-asks", router, ["sh", "-c", "while :; do "
                       f"{lab.TOOLS}/mcaudit-query --count 1 --tenths 20 {device}; sleep 8; done"])

    def write_program(self, name, text):
        """Writes a program that is run here."""
        with open(f"{self.folder}/{name}", "w", encoding="ascii") as file:
            file.write(text)
        os.chmod(f"{self.folder}/{name}", 0o755)

    def end_routers(self):
        """Ends what runs on the routers, and what a block alone needs."""
        for name in [it for it in self.running if it.startswith("r")]:
            self.end(name)
        self.end("more")
        lab.run(f"rm -f {self.folder}/r?-bin/vtysh")
        time.sleep(0.5)

    def forward(self, **lines):
        """Has smcroute make the vifs and rows of each router, by other lines where they are given."""
        self.end_routers()
        for router in ROUTERS:
            self.start_router(router, lines.get(router, PLAIN))
        self.begin_queries()

    def make_site(self, name=""):
        """Makes the folder of one that is kept for the guide, without tables, and with lists as mcaudit-reports has
        gathered them; or has none."""
        shutil.rmtree(self.here)
        os.mkdir(self.here)
        if name:
            shutil.copytree(f"{SITES}/{name}", f"{self.here}/site", ignore=shutil.ignore_patterns("vif-*", "cache-*"))
            gathered = {it.name: {"by": "capture", "of": None, "time": int(it.stat().st_mtime)}
                        for it in os.scandir(f"{self.here}/site") if it.name.startswith("igmp-")}
            with open(f"{self.here}/site/collected.json", "w", encoding="ascii") as file:
                json.dump({"version": 2, "files": gathered}, file)
        with open(f"{self.here}/routers", "w", encoding="ascii") as file:
            file.write("r1=root@10.9.0.1\nr2=!ssh admin@10.9.0.2 sudo -n\n")

    def tool(self, line):
        """Runs a line of the shell as a reader of the guide would. Returns what it prints."""
        for tool in ("mcaudit-site init", "mcaudit-reports"):
            line = line.replace(f"{tool} ", f"{tool} --wait 20 ")
        done = subprocess.run(["sh", "-c", line], cwd=self.here, env=self.environment, stdout=subprocess.PIPE,
                              stderr=subprocess.STDOUT, text=True, check=False)
        return done.stdout


LAB = None


@scene
def init():
    """All is well, and nothing is there yet."""
    LAB.at("r2", "echo 0 > /proc/sys/net/ipv4/conf/eth0/rp_filter; ip route replace 10.0.0.0/24 via 10.0.1.1")
    LAB.make_site()


@scene
def again():
    """The operator has written the list of the link between the routers, as the guide says."""
    LAB.tool(": > site/igmp-10.0.1.0-24")


@scene
def draft():
    """r1 has a row of a source that is idle, and r2 a link whose other end no router has."""
    LAB.make_site()
    LAB.at("r2", "ip link add alone0 type veth peer name alone1; ip link set alone0 up; "
           "ip address add 10.77.8.2/30 dev alone0")
    LAB.forward(r1=f"{PLAIN}mroute from eth0 source {OTHER} group 239.1.2.5 to eth1\n",
                r2=f"phyint alone0 enable\n{PLAIN}")


@scene
def collect():
    """The topology and the lists are there."""
    LAB.forward()
    LAB.make_site("right")


@scene
def reports():
    """What the block before has left."""


@scene
def premises():
    """r2 has another route back to the source, and drops its packets by rp_filter."""
    LAB.forward()
    LAB.make_site("right")
    LAB.tool("mcaudit-collect --adopt --routers routers site")
    LAB.join("r2", "eth2", "office", "10.0.9.2")
    LAB.at("r2", "echo 1 > /proc/sys/net/ipv4/conf/eth0/rp_filter; "
           "ip route replace 10.0.0.0/24 via 10.0.9.1 dev eth2 onlink")


@scene
def monitor():
    """r1 is on hall too, and forwards there as well since the last set was judged."""
    LAB.join("r1", "eth2", "hall", "10.0.2.1")
    LAB.make_site("duplicate")
    LAB.forward(r1=f"phyint eth2 enable\n{PLAIN}")
    LAB.tool("mcaudit-monitor --facts --adopt --routers routers site")
    LAB.forward(r1=f"phyint eth2 enable\n{BOTH}")


@scene
def diff():
    """r1 forwards onto hall in r2's place, and passes on a stream that nobody listed."""
    LAB.make_site("duplicate")
    LAB.forward(r1=f"phyint eth2 enable\n{PLAIN}")
    LAB.tool("mcaudit-collect --adopt --routers routers site")
    LAB.forward(r1=f"phyint eth2 enable\n{BOTH}mroute from eth0 source {OTHER} group 239.1.2.9 to eth1\n",
                r2=PLAIN.replace(ROUTE, ""))
    LAB.tool("mcaudit-collect --routers routers site")


@scene
def plugin():
    """A timer has collected four sets, with facts."""
    LAB.make_site("right")
    LAB.forward()
    LAB.tool("mcaudit-collect --adopt --facts --routers routers site")
    LAB.tool("mcaudit-reports --all site --routers routers --empty-lan studio")
    for _ in range(3):
        time.sleep(1)
        LAB.tool("mcaudit-collect --facts --routers routers site")


def start_frr(router, igmp0, igmp1):
    """Starts FRR on a router, whose vtysh then answers."""
    LAB.write_program(f"{router}-bin/vtysh", VTYSH.format(folder=frr.folder_of(LAB, router)))
    frr.start(LAB, router, "10.0.1.2", igmp0, igmp1)


@scene
def daemon():
    """The routers run FRR; r2 is up for long enough, and r1 has just begun to ask."""
    LAB.make_site("right")
    LAB.end_routers()
    LAB.begin("more", "member", ["python3", TRAFFIC, "member", MEMBER, "99999", "239.1.2.4"])
    start_frr("r2", "", frr.IGMP)
    time.sleep(20)
    LAB.tool("mcaudit-collect --adopt --routers routers site")
    start_frr("r1", " ip igmp\n", "")


def plain(text):
    """Returns the lines of a text without what differs from run to run, in order."""
    for pattern, word in NUMBERS:
        text = re.sub(pattern, word, text)
    return sorted(text.splitlines())


def current(line):
    """Returns a command for the sets that are there: the set that it names is the last but one of them."""
    if "site.sets/" not in line:
        return line
    return re.sub(r"20\d{6}T\d{6}Z", sorted(os.listdir(f"{LAB.here}/site.sets"))[-2], line)


def run_block(name, block):
    """Runs the commands of a block."""
    SCENES[name]()
    for line, shown in commands_of(block):
        printed = LAB.tool(current(line))
        is_well = plain(printed) == plain(shown)
        lab.PASSED[is_well] += 1
        print(f"$ {line}\n{printed}" if is_well else f"failed: {name}: $ {line}\nshown:\n{shown}printed:\n{printed}",
              end="", flush=True)


def main():
    """Runs all blocks, or some. Returns the status."""
    global LAB  # pylint: disable=global-statement
    if os.getuid() or len(sys.argv) < 2 or not os.access(sys.argv[1], os.X_OK):
        raise SystemExit("Usage: guide.py PROGRAM [NAME ...], as root")
    with open(os.path.join(TOP, "docs", "GUIDE.md"), encoding="utf-8") as file:
        blocks = BLOCK.findall(file.read())
    if sorted(name for name, _ in blocks) != sorted(SCENES):
        raise SystemExit(f"lab: the guide has the blocks {[name for name, _ in blocks]}, and here are {list(SCENES)}")
    LAB = lab.LAB = Guide(os.path.abspath(sys.argv[1]))
    signal.signal(signal.SIGTERM, lambda *_: sys.exit(1))
    try:
        LAB.build()
        for name, block in blocks:
            if len(sys.argv) == 2 or name in sys.argv[2:]:
                run_block(name, block)
    finally:
        LAB.clear()
    return lab.status_of(lab.PASSED[True], lab.PASSED[False])


if __name__ == "__main__":
    sys.exit(main())
