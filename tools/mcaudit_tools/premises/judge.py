"""What of the routers' own settings contradicts their tables: judged of the facts that a set has beside them."""
import functools
import ipaddress
import os

from mcaudit_tools.ages import LATER
from mcaudit_tools.answers import MOST_TABLE
from mcaudit_tools.common import clean
from mcaudit_tools.facts import PREFIX
from mcaudit_tools.files import read_regular
from mcaudit_tools.premises.findings import BESIDE, NOT_KNOWN, ROUTER, Finding, some
from mcaudit_tools.premises.read import read_facts
from mcaudit_tools.told import UNREADABLE

OLDER = 60  # seconds that facts may be older than the tables


class Judge:
    """All routers of a set."""

    def __init__(self, domain, folder, ages):
        """Takes what an audit answers of the set, its folder, and how old its files are."""
        self.domain, self.folder, self.addresses, self.neighbors = domain, folder, {}, []
        self.facts_times, self.times = ages.facts(), ages.tables()
        self.numbers = {flow: tuple(int(ipaddress.IPv4Address(it)) for it in flow) for flow in domain.flows}

    @functools.cached_property
    def wanted(self):
        """The flows whose rows are wanted."""
        from mcaudit_tools.premises.rows import Wanted  # pylint: disable=import-outside-toplevel
        return Wanted(self.domain.flows)

    def read(self, router):
        """Returns the facts of a router, or why there are none."""
        facts, fault = read_facts(self.folder, PREFIX + router)
        self.addresses[router] = facts.addresses if facts is not None else None
        return facts, fault

    def lines(self, name):
        """Returns the lines of a table of the set."""
        return read_regular(os.path.join(self.folder, name), MOST_TABLE).split(b"\n")

    def age_fault(self, router):
        """Returns why a router's facts don't show what was so when its tables were read, or None."""
        asked, read = self.facts_times.get(router), self.times.get(router)
        if asked == LATER:
            return "they are of a later time than now"
        older = read - asked if asked is not None and read is not None else 0
        return f"they are {older} s older than its tables" if older > OLDER else None

    def gateway(self, router, vif, tree):
        """Returns the address of the router that feeds this one on the flow's tree, on the LAN of the vif; None where
        that isn't known."""
        feeder, number = tree.feeding.get(self.domain.lan_of.get((router, vif)), (None, None)) if tree else (None, None)
        if feeder is None:
            return None
        if feeder not in self.addresses:
            self.read(feeder)
        return next(iter((self.addresses.get(feeder) or {}).get(self.domain.devices.get((feeder, number)), ())), None)

    def judge_all(self):
        """Judges all routers. Returns what was found."""
        found = []
        for router in self.domain.routers:
            facts, fault = self.read(router)
            if facts is None:
                found.append(Finding(NOT_KNOWN, ROUTER, router, f"facts: {clean(fault)}"))
                continue
            # (a set without facts needs nothing of it)
            from mcaudit_tools.premises.router import RouterJudge  # pylint: disable=import-outside-toplevel
            try:
                found += RouterJudge(self, router, facts).judge_all()
                self.add_neighbors(router, facts.json("frr_neighbors"))
            except UNREADABLE as fault:
                found.append(Finding(NOT_KNOWN, ROUTER, router, f"facts: they can't be read ({type(fault).__name__})"))
        return found + list(self.judge_neighbors())

    def add_neighbors(self, router, known):
        """Takes the neighbours of a router that speak PIM."""
        for device, it in known.items() if isinstance(known, dict) else ():
            if isinstance(it, dict):
                self.neighbors += [(router, device, address) for address in it]

    def judge_neighbors(self):
        """Yields the neighbours that are no listed router's, or that this isn't known."""
        missing = [it for it in self.domain.routers if self.addresses.get(it) is None]
        if missing:
            for router in dict.fromkeys(router for router, _, _ in self.neighbors):
                yield Finding(NOT_KNOWN, "neighbors", router, "whether its PIM neighbours are listed routers: there "
                              f"are no addresses of {some(missing)}")
            return
        listed = {it for found in self.addresses.values() for them in found.values() for it in them}
        for router, device, address in self.neighbors:
            if address not in listed:
                yield Finding(BESIDE, "neighbors", router, clean(
                    f"{device}: its PIM neighbour {address} belongs to no listed router"))
