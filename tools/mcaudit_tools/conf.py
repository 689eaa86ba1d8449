"""What smcrouted makes of its smcroute.conf: a router's vifs, its entries, and what it joins itself.

As `smcrouted -N` 2.5 has it, line by line: a vif for each `phyint DEVICE enable`, in their order, or where the file has
none the vifs that the router has. A line that is not understood here, or whose entries come on demand from sources
that no line names, is named as not audited; there is no verdict of the file then.
"""
import dataclasses
import glob
import ipaddress
import os
import re

from mcaudit_tools.changes import words_of
from mcaudit_tools.common import Failed, Refused, Wrong, is_name
from mcaudit_tools.files import read_regular
from mcaudit_tools.rewrite import CLOSED, EVERY, Entry, ReportList

MOST_BYTES = 1 << 20  # of a file
MOST_LINE = 500  # bytes of a line that smcrouted is sure to read as one
MOST_DEVICES = 32  # behind `to`: with one more smcrouted ends
MOST_VIFS = 32
DEVICE = re.compile(r"[A-Za-z0-9_.@-]{1,15}")
GROUPS = ipaddress.IPv4Network("224.0.0.0/4")
LINK_LOCAL = ipaddress.IPv4Network("224.0.0.0/24")  # groups that nobody forwards or reports
ANY = ipaddress.IPv4Network("0.0.0.0/32")


@dataclasses.dataclass
class Given:
    """A file that is given for a router."""

    router: str
    path: str

    def apply(self, copy, root):
        """Gives the router in the copy the vifs and entries that smcrouted makes of the file. Returns what isn't
        audited, and the lines whose entries come on demand."""
        router = self.router
        if router not in copy.first.orders:
            raise Refused(f"--conf {router}={self.path}: the topology has no router {router}")
        vifs, cache = copy.vifs(router), copy.cache(router)
        before = {number: it for number, it in vifs.vifs.items() if it.is_link}
        daemon, lans = daemon_of(copy, self, root, before)
        entries, on_demand = daemon.entries_of(copy.flows)
        locals_of = {it.device: vifs.lines[it.place].split()[7] for it in before.values()}
        for table in (vifs, cache):
            table.clear()
        for device, (number, threshold) in sorted(daemon.vifs.items(), key=lambda it: it[1]):
            name = os.fsencode(device)
            vifs.add(number, name, locals_of.get(name, EVERY))
            cache.thresholds[number] = threshold
        for pair, entry in entries.items():
            cache.put(*pair, Entry(entry.vif, {vif: it for vif, it in entry.outgoing.items() if it < CLOSED}))
        copy.changing(f"vif-{router}")
        copy.changing(f"cache-{router}")
        join(copy, daemon.joins, lans)
        return [f"{router}: {it}" for it in daemon.unaudited], [f"{router}: {it}" for it in on_demand]


@dataclasses.dataclass
class Range:
    """A line whose entries smcrouted adds on demand, as a packet comes in by the vif."""

    line: str
    vif: int
    sources: ipaddress.IPv4Network
    groups: ipaddress.IPv4Network
    outgoing: dict


class Skipped(Exception):
    """Why a line isn't audited."""


def parse_all(words):
    """Reads each ROUTER=FILE; no router comes twice."""
    found = []
    for word in words:
        router, _, path = word.partition("=")
        if not is_name(router) or not path:
            raise Wrong(f"--conf {word}: it takes ROUTER=FILE")
        if router in [it.router for it in found]:
            raise Wrong(f"--conf {word}: {router} is given twice")
        found.append(Given(router, path))
    return found


def network_of(word):
    """Returns the addresses of a word ADDRESS[/LENGTH]."""
    address, has_length, length = word.partition("/")
    if has_length and not re.fullmatch(r"[1-9]|[12][0-9]|3[0-2]", length):
        raise Skipped(f"{word} is not a range of addresses")
    try:
        return ipaddress.IPv4Network(f"{address}/{length or 32}", strict=False)
    except ValueError as fault:
        raise Skipped(f"{word} is not an address or a range of addresses") from fault


class Daemon:
    """What smcrouted has made of the lines that it has read."""

    def __init__(self, devices, vifs):
        """Takes the devices of the router, and those that have a vif from the start, by number."""
        self.devices = devices
        self.vifs = {device: [number, 1] for number, device in vifs.items()}  # by device: number and threshold
        self.entries, self.ranges, self.joins, self.unaudited = {}, [], [], []

    def take(self, line, words):
        """Takes the words of a line, which is called so, or why it isn't audited."""
        readers = {"phyint": self.phyint, "mroute": self.mroute, "mgroup": self.join, "ssmgroup": self.join}
        if isinstance(words, str):
            self.skip(line, words)
        elif words and not words[0].startswith("#"):
            try:
                if words[0] not in readers:
                    raise Skipped(f"`{words[0]}` is not known")
                readers[words[0]](line, words[1:])
            except Skipped as fault:
                self.skip(line, str(fault))

    def skip(self, line, why):
        """Keeps why something of a line isn't audited."""
        self.unaudited.append(f"{line}: {why}")

    def phyint(self, _, words):
        """Makes a vif, or takes one out."""
        device, options = words[0] if words else "", without_comment(words[1:])
        threshold, numbers = 1, [at + 1 for at, it in enumerate(options) if it == "ttl-threshold"]
        for at in reversed(numbers):
            value = options[at] if at < len(options) else ""
            if not re.fullmatch(r"[1-9][0-9]{0,2}", value) or int(value) > CLOSED:
                raise Skipped("a ttl-threshold is 1 to 255")
            threshold = int(value)
            del options[at - 1:at + 1]
        states = [it for it in options if it != "mrdisc"]
        if states not in (["enable"], ["disable"]):
            raise Skipped("neither enable nor disable, or more than that")
        if device not in self.devices:
            raise Skipped(f"no file shows a device {device}")
        if states == ["disable"]:
            self.disable(device)
        elif device in self.vifs:
            self.vifs[device][1] = threshold
        else:
            free = set(range(MOST_VIFS)) - {number for number, _ in self.vifs.values()}
            if not free:
                raise Skipped(f"a router has at most {MOST_VIFS} vifs")
            self.vifs[device] = [min(free), threshold]

    def disable(self, device):
        """Takes a vif out, which no entry has."""
        number = self.vifs.get(device, [None])[0]
        used = [*self.entries.values(), *(Entry(it.vif, it.outgoing) for it in self.ranges)]
        if any(number == it.vif or number in it.outgoing for it in used if number is not None):
            raise Skipped(f"{device} has entries already")
        self.vifs.pop(device, None)

    def vif(self, device):
        """Returns the number of a device's vif."""
        if device not in self.vifs:
            raise Skipped(f"{device} has no vif here, so smcrouted leaves the line or the device out")
        return self.vifs[device][0]

    def ends(self, words, ends):
        """Returns the incoming device, the sources and the groups that words name, in any order."""
        pairs = dict(zip(words[::2], words[1::2]))
        if len(words) % 2 or len(pairs) * 2 != len(words) or not {"from", "group"} <= set(pairs) <= ends:
            raise Skipped("it is not understood")
        groups = network_of(pairs["group"])
        if not groups.subnet_of(GROUPS):
            raise Skipped(f"{pairs['group']} is not a group")
        sources = network_of(pairs["source"]) if "source" in pairs else ANY
        return pairs["from"], sources, groups

    def mroute(self, line, words):
        """Makes an entry, or keeps what entries are made on demand."""
        at = words.index("to") if "to" in words else len(words)
        device, sources, groups = self.ends(without_comment(words[:at]), {"from", "source", "group"})
        vif = self.vif(device)
        is_cut = any(it.startswith("#") for it in words[:at])
        outgoing = {} if is_cut else self.outgoing(line, words[at + 1:])
        if sources.network_address == ANY.network_address:
            raise Skipped("without a source, so that entries are made on demand for each source that sends")
        if sources.num_addresses > 1 or groups.num_addresses > 1:
            self.ranges.append(Range(line, vif, sources, groups, outgoing))
            return
        pair = str(sources.network_address), str(groups.network_address)
        before = self.entries.get(pair)
        if before is not None and before.vif == vif:
            outgoing = {**before.outgoing, **outgoing}
        self.entries[pair] = Entry(vif, outgoing)

    def outgoing(self, line, words):
        """Returns the outgoing vifs of the words behind `to`, with their thresholds."""
        if len(words) > MOST_DEVICES:
            raise Skipped(f"more than {MOST_DEVICES} words behind `to`, with which smcrouted ends")
        found = {}
        for number, device in enumerate(words):
            is_comment = any(it.startswith("#") for it in words[:number + 1])
            if device in self.vifs:
                vif, threshold = self.vifs[device]
                found[vif] = threshold
                if is_comment:
                    self.skip(line, f"smcrouted 2.5 takes {device} for a device, although it is behind #")
            elif not is_comment:
                self.skip(line, f"{device} has no vif here, so smcrouted leaves it out")
        return found

    def join(self, _, words):
        """Keeps what the router joins as a host of a LAN."""
        device, sources, groups = self.ends(without_comment(words), {"from", "source", "group"})
        self.vif(device)
        self.joins.append((device, sources, groups))

    def entries_of(self, flows):
        """Returns all entries that there are, or come on demand of the flows, by source and group; and of which lines
        they come on demand."""
        found, on_demand = dict(self.entries), {}
        for source, group, _ in flows:
            ends = ipaddress.IPv4Address(source), ipaddress.IPv4Address(group)
            ranges = [it for it in self.ranges if ends[0] in it.sources and ends[1] in it.groups]
            for it in ranges:
                if (source, group) in self.entries or it.vif != ranges[0].vif:
                    self.skip(it.line, f"{source} {group} fits another line too, and packets decide which is taken")
            if ranges and (source, group) not in found:
                found[source, group] = Entry(ranges[0].vif, ranges[0].outgoing)
                on_demand[ranges[0].line] = None
        return found, list(on_demand)


def without_comment(words):
    """Returns the words before the first that begins with #."""
    at = next((number for number, it in enumerate(words) if it.startswith("#")), len(words))
    return words[:at]


def lines_of(path, named):
    """Yields the name and the words of each line of a file, which is called so; in place of the words, why the line
    isn't audited: one that is too long, or that no line feed ends, may be read otherwise than it is written."""
    *lines, last = read_regular(path, MOST_BYTES, named).decode("utf-8", "surrogateescape").split("\n")
    for number, line in enumerate(lines, 1):
        line = line.removesuffix("\r")
        is_long = len(line) > MOST_LINE
        yield f"{named} line {number}", f"it has more than {MOST_LINE} bytes" if is_long else words_of(line)
    if last:
        why = "no line feed ends it, so that smcrouted 2.5 takes what an earlier line had for its end"
        yield f"{named} line {len(lines) + 1}", why


def all_lines(path, named, root, is_included=False):
    """Yields the same of the lines of a file and of what it includes, or why that isn't read."""
    for line, words in lines_of(path, named):
        if words[:1] != ["include"]:
            yield line, words
        elif root is None:
            yield line, "--conf-root doesn't say where that lies"
        elif is_included or len(without_comment(words)) != 2:
            yield line, "an include in an included file" if is_included else "it is not understood"
        else:
            yield from included_lines(line, words[1], root)


def included_lines(line, pattern, root):
    """Yields the lines of the files that a line includes, none of which lies outside of the root."""
    own = os.path.realpath(root)
    paths = sorted(glob.glob(os.path.join(glob.escape(own), pattern.lstrip("/"))))
    if not paths and not glob.has_magic(pattern):
        yield line, f"there is no {pattern} in {root}"
    for path in paths:
        if os.path.commonpath([own, os.path.realpath(path)]) != own:
            raise Failed(f"{line}: {pattern} leads out of {root}")
        yield from all_lines(path, os.path.join(root, os.path.relpath(path, own)), root, True)


def daemon_of(copy, given, root, before):
    """Returns the daemon that has read the file, of a router that had these vifs, and the LAN of each device of it."""
    lans = {it["device"]: it["lan"] for it in copy.first.line["interfaces"]
            if it["router"] == given.router and (it["vif"] is None or it["vif"] in before)}
    lines = list(all_lines(given.path, given.path, root))
    has_own = any(words[:1] == ["phyint"] and "enable" in words for _, words in lines)
    daemon = Daemon({it for it in lans if DEVICE.fullmatch(it)},
                    {} if has_own else {vif: os.fsdecode(it.device) for vif, it in before.items()})
    for line, words in lines:
        daemon.take(line, words)
    return daemon, lans


def join(copy, joins, lans):
    """Has the LANs of the router's devices want what it joins: of a range what flows are of."""
    for device, sources, groups in joins:
        lan, is_every = lans.get(device), sources.network_address == ANY.network_address
        if lan is None:
            continue
        pairs = [(source, group) for source, group, _ in copy.flows if ipaddress.IPv4Address(group) in groups
                 and (is_every or ipaddress.IPv4Address(source) in sources)]
        if groups.num_addresses == 1 and sources.num_addresses == 1:
            pairs = [(str(sources.network_address), str(groups.network_address))]
        reports = copy.file(f"igmp-{lan}", ReportList)
        if is_every:
            pairs = [(None, group) for _, group in pairs]
        for source, group in dict.fromkeys(pairs):
            if ipaddress.IPv4Address(group) not in LINK_LOCAL:
                reports.join(ipaddress.IPv4Address(group).packed, source and ipaddress.IPv4Address(source).packed)
                copy.changing(f"igmp-{lan}")
