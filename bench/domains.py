"""A domain as data, and what follows from it: the tree that each flow goes by, what each LAN wants, and the travel of
a packet. It is worked out here from the domain alone, so that what mcaudit writes can be held against it."""
import random
from dataclasses import dataclass, field
from typing import Callable, NamedTuple

INCLUDE, EXCLUDE = 1, 2  # types of records (RFC 3376, section 4.2.12)
RECORDS = 183  # of 8 bytes, which a packet of 1,500 bytes can carry behind its headers


def word(address, order="little"):
    """An address as a kernel prints it on a machine of that byte order."""
    return address.to_bytes(4, order).hex().upper()


def dotted(address):
    """An address as people write it."""
    return ".".join(str(octet) for octet in address.to_bytes(4, "big"))


def checked(message):
    """The line of a message, in hexadecimal, with its checksum put in.

    65,536 is 1 modulo 65,535, so the sum of the 16-bit words is that of the whole number."""
    checksum = 0xFFFF - int.from_bytes(message, "big") % 0xFFFF
    return (message[:2] + checksum.to_bytes(2, "big") + message[4:]).hex() + "\n"


def report(records):
    """A Version 3 report of some records, each a type, a group and sources (RFC 3376, section 4.2)."""
    message = bytes([0x22, 0, 0, 0, 0, 0]) + len(records).to_bytes(2, "big")
    for kind, group, sources in records:
        message += bytes([kind, 0]) + len(sources).to_bytes(2, "big") + group.to_bytes(4, "big")
        message += b"".join(source.to_bytes(4, "big") for source in sources)
    return checked(message), records


def older_report(group):
    """A Version 2 report, which stands for all sources of its group (RFC 3376, section 7.3.2)."""
    return checked(bytes([0x16, 0, 0, 0]) + group.to_bytes(4, "big")), [(EXCLUDE, group, [])]


def joins(groups):
    """The reports of one host that takes these groups from every source."""
    records = [(EXCLUDE, group, []) for group in groups]
    return [report(records[at : at + RECORDS]) for at in range(0, len(records), RECORDS)]


class Reports:
    """What the hosts of one LAN reported: its lines, and of each group the sources that records of type INCLUDE list,
    and those that all of type EXCLUDE list."""

    def __init__(self, reports=()):
        self.lines = []
        self.included = {}
        self.excluded = {}
        for line, records in reports:
            self.lines.append(line)
            for kind, group, sources in records:
                if kind == INCLUDE:
                    self.included.setdefault(group, set()).update(sources)
                else:
                    self.excluded[group] = self.excluded.get(group, set(sources)).intersection(sources)

    def admits(self, source, group):
        """Whether some record for the group admits the source (RFC 3376, section 3.2)."""
        if group in self.excluded and source not in self.excluded[group]:
            return True
        return source in self.included.get(group, ())


class Plan:
    """Routers, and the LANs that they are put on one after the other: a router's first LAN is that of its vif 0."""

    def __init__(self, routers):
        self.routers = [[] for _ in range(routers)]
        self.lans = 0

    def lan(self, *routers):
        """Puts routers on one LAN more, and returns its number."""
        for router in routers:
            self.routers[router].append(self.lans)
        self.lans += 1
        return self.lans - 1


class Flow(NamedTuple):
    """What a source on a LAN sends to a group, and with which time to live."""

    group: int
    source: int
    lan: int
    ttl: int


class Tree(NamedTuple):
    """The way of a flow: the LANs that it reaches, ascending, each as an entry of a certificate (LAN, need, rank,
    router and vif that send on it); and the row of each router, the vif that it comes in by and those that it goes out
    by."""

    entries: tuple
    rows: dict


@dataclass
class Domain:
    """Routers on LANs as planned, with a row for each flow, and reports of each LAN.

    Routers below `full` have other rows too, of a group and a source each, that go out by as many vifs as one of `oifs`
    says. `arrange` puts the rows of a table into their order."""

    rng: random.Random
    plan: Plan
    flows: list
    reports: list
    others: list = field(default_factory=list)
    full: int = 256
    oifs: tuple = (1, 1, 2)
    arrange: Callable = None
    order: str = "little"

    def __post_init__(self):
        self.hearers = [[] for _ in range(self.plan.lans)]
        for router, own in enumerate(self.plan.routers):
            for vif, lan in enumerate(own):
                self.hearers[lan].append((router, vif))
        spreads = {lan: self.spread(lan) for lan in {flow.lan for flow in self.flows}}
        self.trees, self.tree_of, numbers = [], [], {}
        for flow in self.flows:
            wanting = frozenset(n for n, lan in enumerate(self.reports) if lan.admits(flow.source, flow.group))
            number = numbers.setdefault((flow.lan, wanting), len(numbers))
            if number == len(self.trees):
                self.trees.append(self.tree(spreads[flow.lan], wanting))
            self.tree_of.append(number)

    def spread(self, source_lan):
        """For each LAN, in the order in which packets from this one reach it, its rank and the router and vif that send
        on it; and for each router the vif that they come in by. It goes by the fewest routers, the lowest number
        first."""
        reached, incoming, order = {source_lan: (0, None)}, {}, [source_lan]
        for lan in order:
            for router, vif in self.hearers[lan]:
                if router in incoming:
                    continue
                incoming[router] = vif
                for out, further in enumerate(self.plan.routers[router]):
                    if further not in reached:
                        reached[further] = (reached[lan][0] + 1, (router, out))
                        order.append(further)
        return reached, incoming

    def tree(self, spread, wanting):
        """The tree that reaches the LANs that want a flow, and those on the way there."""
        reached, incoming = spread
        rows = {router: (vif, []) for router, vif in incoming.items()}
        used = {}
        for lan in reversed(reached):
            rank, sender = reached[lan]
            if sender and (lan in wanting or lan in used):
                router, vif = sender
                used[lan] = (lan, rank + 1, rank, router, vif)
                used.setdefault(self.plan.routers[router][incoming[router]])
                rows[router][1].append(vif)
        root = next(iter(reached))
        used[root] = (root, 1, 0, None, None)
        return Tree(tuple(used[lan] for lan in sorted(used)), {r: (vif, sorted(out)) for r, (vif, out) in rows.items()})

    def travel(self, number, ttl):
        """The events of a packet of a flow, whose first waiting copy is handled each time: router, vif, time to live of
        the copy, and what the router does."""
        flow, tree = self.flows[number], self.trees[self.tree_of[number]]
        waiting = [(router, vif, ttl) for router, vif in self.hearers[flow.lan]]
        for router, vif, left in waiting:
            incoming, out = tree.rows[router]
            if vif != incoming:
                yield router, vif, left, "other vif"
                continue
            passed = [n for n in out if left > 1]
            yield router, vif, left, f"sent {len(passed)} strayed 0"
            for sent in passed:
                lan = self.plan.routers[router][sent]
                waiting += [(*hearer, left - 1) for hearer in self.hearers[lan] if hearer != (router, sent)]
