"""What a router's own bridge believes that the hosts behind its ports ask for: its multicast database, by iproute2.

It is exact where the bridge snoops with IGMPv3 and asks hosts itself: by default it is of version 2, and then all
sources are lost. Nothing says how long it has done so: it is read again once a query and its answers are over.
"""
import re
import shlex

from mcaudit_tools import igmp
from mcaudit_tools.daemon import ANY, MOST_SOURCES, Belief, NoBelief, Want, address_of, source_of
from mcaudit_tools.told import UNREADABLE

SCRIPTS = "sections.sh", "bridge.sh"  # what a router is asked by
WANTED = {"multicast_snooping": ("1", "it does not snoop (mcast_snooping 0)"),
          "multicast_igmp_version": ("3", "it snoops with IGMPv2, and loses all sources (mcast_igmp_version 3)"),
          "multicast_querier": ("1", "it does not ask hosts itself (mcast_querier 1)")}
HUNDREDTHS = re.compile(r"[1-9][0-9]{0,7}")  # of a second, as intervals are told
TIMER = re.compile(r" *[0-9]{1,9}\.[0-9]{2}")
MODES = {"include": igmp.INCLUDE, "exclude": igmp.EXCLUDE}


def variable_of(bridge):
    """Returns what a shell is handed to know the bridge's name."""
    return b"bridge=" + shlex.quote(bridge).encode() + b"\n"


class Bridge:
    """The answers of a router about its bridge."""

    def __init__(self, told):
        """Takes the sections that the router answered."""
        self.told = told
        self.settings = dict(it.split(" ", 1) for it in told.lines("settings") if " " in it)

    def check_settings(self):
        """Fails where the bridge doesn't know exactly what hosts ask for."""
        reason = self.told.failed() or self.told.fault("settings")
        if reason or not self.settings.get("ifindex"):
            raise NoBelief(f"its settings can't be read: {reason or 'there is no such bridge'}")
        if self.settings.get("vlan_filtering") == "1":
            raise NoBelief("it filters VLANs, so that its entries are of several LANs")
        for name, (value, reason) in WANTED.items():
            if self.settings.get(name) != value:
                raise NoBelief(reason if self.settings.get(name) else f"it is not a bridge that snoops: no {name}")

    def interval(self):
        """Returns how many seconds a query and its answers may take."""
        values = [self.settings.get(f"multicast_{it}_interval", "") for it in ("query", "query_response")]
        if not all(map(HUNDREDTHS.fullmatch, values)):
            raise NoBelief("its query interval isn't known")
        return -(-sum(map(int, values)) // 100)

    def belief(self, device):
        """Returns what the bridge believes."""
        try:
            self.check_settings()
            interval, tables = self.interval(), self.told.json("mdb")
            if not isinstance(tables, list):
                raise NoBelief(f"its database can't be read: {self.told.fault('mdb') or 'it is not a list of JSON'}")
            wants = {it for table in tables for entry in table["mdb"] for it in wants_of(entry, device)}
            order = sorted(wants, key=lambda it: (it.group, it.mode, it.sources()))
            return Belief(tuple(it for it in order if it.mode == igmp.EXCLUDE or it.running), interval=interval)
        except NoBelief as fault:
            return Belief(reason=str(fault))
        except UNREADABLE as fault:
            return Belief(reason=f"its database is none of a bridge ({type(fault).__name__})")


def wants_of(entry, bridge):
    """Yields what an entry of the database says that a port's hosts ask for. Those of one source follow from those of
    all; those of the bridge itself are the router's own; the others are of IPv6 or of no IP."""
    if entry.get("dev") != bridge or entry["port"] == bridge or "src" in entry or ":" in entry["grp"]:
        return
    group = address_of(entry["grp"])
    if "vid" in entry:
        raise NoBelief("it has entries of VLANs, which may be of several LANs")
    if not 224 <= group[0] <= 239:
        raise NoBelief(f"{entry['grp']} is not a group")
    rows = entry.get("source_list", [])
    if len(rows) > MOST_SOURCES or not all(TIMER.fullmatch(it["timer"]) for it in rows):
        raise NoBelief(f"the sources of {igmp.dotted(group)} are none of a bridge's")
    running = frozenset(source_of(it["address"]) for it in rows if float(it["timer"]) > 0)
    expired = frozenset(source_of(it["address"]) for it in rows) - running
    if group >= igmp.FIRST_FORWARDED:
        yield Want(group, MODES[entry.get("filter_mode", "exclude")], 3, running, expired, running | {ANY})
