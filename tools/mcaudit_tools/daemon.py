"""What a router's routing daemon believes that the hosts on an interface ask for: FRR's pimd, by its JSON.

The mode of a group stands in `show ip igmp groups json` alone, and its sources in `show ip igmp sources json`, where an
EXCLUDE of a source looks as an INCLUDE of it does. A source whose timer has run out is excluded, and one whose timer
runs is asked for; `*` is a mark of FRR's own.

A daemon knows what hosts ask for once a query and its answers are over. What isn't known of it, or isn't FRR's, is no
belief: a list that lacked a group would say that nobody wants it.
"""
import dataclasses
import ipaddress
import re

from mcaudit_tools import igmp
from mcaudit_tools.common import Failed, clean
from mcaudit_tools.told import UNREADABLE

SCRIPTS = "sections.sh", "daemon.sh"  # what a router is asked by
COMMANDS = {"frr_igmp": "show ip igmp interface json", "frr_igmp_detail": "show ip igmp interface detail json",
            "frr_groups": "show ip igmp groups json", "frr_sources": "show ip igmp sources json"}  # by section
MODES = {"INCLUDE": igmp.INCLUDE, "EXCLUDE": igmp.EXCLUDE}
ANY = b""  # stands for every source
STOPPED = re.compile(r"--:--(:--)?")  # of a timer
RUNNING = re.compile(r"([0-9]{2}:)?[0-9]{2}:[0-9]{2}")
CLOCK = re.compile(r"([0-9]{2,9}):([0-5][0-9]):([0-5][0-9])")  # of how long something is up
UNITS = re.compile(r"(?:([0-9]{1,4})y)?(?:([0-9]{1,2})w)?(?:([0-9])d)?(?:([0-9]{2})h)?(?:([0-9]{2})m)?")
SECONDS = 365 * 86400, 7 * 86400, 86400, 3600, 60  # of those units
MOST_INTERVAL, MOST_RESPONSE = 65535, 1 << 22  # seconds and milliseconds that FRR may be told
MOST_SOURCES = 16_000  # of a group: a report is one packet


class NoBelief(Failed):
    """Why a daemon's word on an interface doesn't count."""

    def __init__(self, sentence, is_torn=False):
        """Takes the reason, and whether the daemon's answers are just not of one moment."""
        super().__init__(sentence)
        self.is_torn = is_torn


@dataclasses.dataclass(frozen=True)
class Want:
    """What hosts ask of a group, as a daemon believes. Who it forwards to makes no other belief of it."""

    group: bytes
    mode: int
    version: int
    running: frozenset = frozenset()  # sources that are asked for again and again
    expired: frozenset = frozenset()  # sources whose timers have run out
    forwarded: frozenset = dataclasses.field(default=frozenset(), compare=False)  # sources, ANY among them

    def sources(self):
        """Returns the sources that are asked for, or those that nobody wants."""
        return sorted(self.running if self.mode == igmp.INCLUDE else self.expired)

    def report(self):
        """Returns the report of a host that asks for this."""
        if self.version < 3:
            return igmp.summed(igmp.REPORT_1 if self.version == 1 else igmp.REPORT_2, self.group)
        return igmp.state_report(self.mode, self.group, self.sources())

    def asked(self):
        """Returns each source that is asked for; of all but some, ANY."""
        return self.sources() if self.mode == igmp.INCLUDE else [ANY]

    def is_forwarded(self, source):
        """Whether the daemon forwards a source, or any, to somebody there."""
        return bool(self.forwarded) if source == ANY else source in self.forwarded


@dataclasses.dataclass
class Belief:
    """What a daemon believes of one interface, or why that doesn't count."""

    wants: "tuple | None" = None  # by group
    reason: str = ""
    interval: int = 0  # seconds until the next query and its answers are over
    has_no_igmp: bool = False  # the daemon itself says that it asks no hosts there
    is_torn: bool = False
    time: int = 0  # when it was asked, in Unix seconds

    def is_as(self, other):
        """Whether another reading has the same, so that neither is of a change."""
        return not (self.is_torn or other.is_torn) and self.wants == other.wants


def address_of(text):
    """Reads an address."""
    try:
        return ipaddress.IPv4Address(text if isinstance(text, str) else "").packed
    except ValueError as fault:
        raise NoBelief(f"{clean(str(text))[:40]} is no address") from fault


def source_of(text):
    """Reads the address of a source."""
    address = address_of(text)
    if not 0 < address[0] < 224 or address[0] == 127:
        raise NoBelief(f"{text} is not a valid source address")
    return address


def seconds_up(text):
    """Returns for how many seconds something is up, or None where that isn't said."""
    clock = CLOCK.fullmatch(text) if isinstance(text, str) else None
    if clock:
        return sum(int(it) * unit for it, unit in zip(clock.groups(), (3600, 60, 1)))
    units = UNITS.fullmatch(text) if isinstance(text, str) and text else None
    return sum(int(it or 0) * unit for it, unit in zip(units.groups(), SECONDS)) if units else None


def number_of(value, most):
    """Returns a whole number above 0 and of a bound, or None."""
    return value if isinstance(value, int) and not isinstance(value, bool) and 0 < value <= most else None


class Daemon:
    """The answers of a router's daemon."""

    def __init__(self, told):
        """Takes the sections that the router answered."""
        self.told = told
        self.values = {name: told.json(name) for name in COMMANDS}

    def object(self, name):
        """Returns what the daemon answers to a command, which has to be one object."""
        value = self.values[name]
        if isinstance(value, dict):
            return value
        reason = self.told.failed() or self.told.fault(name) or "the answer is not an object of JSON"
        raise NoBelief(f"{COMMANDS[name]}: {reason}")

    def interface(self, device):
        """Returns what the daemon says of an interface."""
        found = self.object("frr_igmp").get(device)
        if not isinstance(found, dict):
            raise NoBelief(f"its daemon names no interface {device}")
        return found

    def has_no_igmp(self, device):
        """Whether the daemon names the interface as one on which it asks no hosts."""
        try:
            return self.interface(device).get("mtraceOnly") is True
        except NoBelief:
            return False

    def interval(self, device):
        """Returns how many seconds a query and its answers may take on an interface."""
        timers = self.object("frr_igmp_detail").get(device)
        timers = timers if isinstance(timers, dict) else {}
        query = number_of(timers.get("timerQueryInterval"), MOST_INTERVAL)
        response = number_of(timers.get("timerQueryResponseIntervalMsec"), MOST_RESPONSE)
        if query is None or response is None:
            raise NoBelief("its query interval isn't known")
        return query + (response + 999) // 1000

    def check_time(self, device):
        """Returns how many seconds a query and its answers take, and fails where the interface isn't up so long."""
        interval, up = self.interval(device), seconds_up(self.interface(device).get("upTime"))
        if up is None:
            raise NoBelief("how long IGMP is up there isn't known")
        if up <= interval:
            raise NoBelief(f"IGMP is up there for {up} s, and a query and its answers may take {interval} s")
        return interval

    def belief(self, device):
        """Returns what the daemon believes of an interface."""
        try:
            if self.has_no_igmp(device):
                return Belief(reason="no ip igmp there, so that it asks no hosts", has_no_igmp=True)
            self.interface(device)
            groups, sources = self.object("frr_groups"), self.object("frr_sources")
            return Belief(wants_of(groups.get(device), sources.get(device)), interval=self.check_time(device))
        except NoBelief as fault:
            return Belief(reason=str(fault), is_torn=fault.is_torn)
        except UNREADABLE as fault:
            return Belief(reason=f"its answer is none of FRR's ({type(fault).__name__})")


def wants_of(groups, sources):
    """Returns what is asked for, by group: of what a daemon has of an interface's groups, and of their sources."""
    found = {} if groups is None else group_rows(groups)
    known = {} if sources is None else source_rows(sources)
    for group, rows in known.items():
        if rows and group not in found:
            raise NoBelief(f"its groups and its sources are not of one moment: {igmp.dotted(group)}", True)
    wants = [want_of(group, it, known.get(group, ())) for group, it in sorted(found.items())]
    return tuple(it for it in wants if it.mode == igmp.EXCLUDE or it.running)


def group_rows(value):
    """Returns what is said of each group that routers forward."""
    if not isinstance(value, dict) or not isinstance(value.get("groups"), list):
        raise NoBelief("its groups are not a list")
    found = {}
    for it in value["groups"]:
        group = address_of(it["group"])
        if not 224 <= group[0] <= 239:
            raise NoBelief(f"{it['group']} is not a group")
        if group in found:
            raise NoBelief(f"it names {it['group']} twice")
        if group >= igmp.FIRST_FORWARDED:
            found[group] = it
    return found


def source_rows(value):
    """Returns what is said of the sources of each group that routers forward. Other keys stand among the groups."""
    if not isinstance(value, dict):
        raise NoBelief("its sources are not an object")
    found = {}
    for name, it in value.items():
        if isinstance(it, dict) and "sources" in it:
            if not isinstance(it["sources"], list) or it.get("group") != name:
                raise NoBelief(f"its sources of {clean(name)[:40]} are no list")
            if address_of(name) >= igmp.FIRST_FORWARDED:
                found[address_of(name)] = it["sources"]
    return found


def want_of(group, row, rows):
    """Returns what is asked of one group."""
    version, mode = row["version"], MODES.get(row.get("mode"))
    if version not in (1, 2, 3) or isinstance(version, bool) or (mode is None) != (version < 3):
        raise NoBelief(f"the mode of {igmp.dotted(group)} isn't known")
    if row["sourcesCount"] != len(rows):
        raise NoBelief(f"its groups and its sources are not of one moment: {igmp.dotted(group)}", True)
    if len(rows) > MOST_SOURCES:
        raise NoBelief(f"{igmp.dotted(group)} has more than {MOST_SOURCES} sources")
    timers = {}
    for it in rows:
        source = ANY if it["source"] == "*" else source_of(it["source"])
        if source in timers or not (STOPPED.fullmatch(it["timer"]) or RUNNING.fullmatch(it["timer"])):
            raise NoBelief(f"the sources of {igmp.dotted(group)} are none of FRR's")
        timers[source] = STOPPED.fullmatch(it["timer"]) is None, it.get("forwarded") is True
    forwarded = frozenset(it for it, (_, is_forwarded) in timers.items() if is_forwarded)
    if version < 3:
        return Want(group, igmp.EXCLUDE, version, forwarded=forwarded)
    running = frozenset(it for it, (is_running, _) in timers.items() if it != ANY and is_running)
    return Want(group, mode, version, running, frozenset(timers) - running - {ANY}, forwarded)
