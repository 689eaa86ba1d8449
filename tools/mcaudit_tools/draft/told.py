"""What routers say, each believed of itself alone: vifs, rows, addresses and routes; and the draft made of it.

mcaudit-collect reads the routers, twice where there are rows: what was counted meanwhile are their rates.
"""
import contextlib
import dataclasses
import ipaddress
import os
import re
import sys
import typing

from mcaudit_tools.addresses import address_word, told_addresses, told_networks
from mcaudit_tools.answers import MOST_TABLE
from mcaudit_tools.common import Failed, find_tool
from mcaudit_tools.files import read_regular
from mcaudit_tools.programs import RUNNING, run
from mcaudit_tools.ways import read_routers

MOST_FLOWS = 4096
PAUSE = 5  # seconds between two readings of the counters, at least
COLLECTED = re.compile(r"([A-Za-z0-9_.-]+): vifs \d+, .*, order (little|big|not known)")
MOST_TOLD = 1 << 20  # bytes of what mcaudit-collect prints
GROUPS = ipaddress.IPv4Address("224.0.1.0"), ipaddress.IPv4Address("239.255.255.255")


class Row(typing.NamedTuple):
    """A row of one source: its incoming vif, and the packets and bytes counted; of the packets also those that came
    by another vif."""
    iif: int
    packets: int
    octets: int
    strangers: int


@dataclasses.dataclass
class Router:
    """What a router says of itself."""
    name: str
    order: str
    vifs: dict = dataclasses.field(default_factory=dict)  # by number: device and flags
    addresses: dict = dataclasses.field(default_factory=dict)  # by device
    rows: dict = dataclasses.field(default_factory=dict)  # by source and group
    wildcards: set = dataclasses.field(default_factory=set)  # groups with a row of every source
    rates: dict = dataclasses.field(default_factory=dict)  # by source and group: packets and bits in a second
    counted: set = dataclasses.field(default_factory=set)  # sources and groups of which any packet came, by any vif


@dataclasses.dataclass
class Flow:
    """A flow, the LAN of its source, and what is known of its time to live."""
    source: ipaddress.IPv4Address
    group: ipaddress.IPv4Address
    lan: "str | None"
    rate: "tuple | None"
    points: list  # routers and devices on the source's LAN
    ttl: "int | None" = None
    said: str = ""  # how the time to live is known, or why it isn't
    is_given: bool = False  # by the list of flows


@dataclasses.dataclass
class Draft:
    """What the topology has, and what is missing or isn't sure."""
    routers: list
    doubts: list  # what is missing or not sure, beside interfaces
    lans: dict = dataclasses.field(default_factory=dict)  # by name: interfaces, as router and device
    networks: dict = dataclasses.field(default_factory=dict)  # by name
    unsure: list = dataclasses.field(default_factory=list)  # interfaces: router, device, why and perhaps the LAN
    remarks: list = dataclasses.field(default_factory=list)
    flows: list = dataclasses.field(default_factory=list)
    services: list = dataclasses.field(default_factory=list)  # what is sent to groups of services
    asked: list = dataclasses.field(default_factory=list)  # groups of which no source is known


def read_addresses(router, address, route):
    """Gives the router its addresses: of `ip`, in either form, or where there is no ip, of its routes."""
    found = []
    with contextlib.suppress(ValueError, TypeError, AttributeError, KeyError, RecursionError):
        found = told_addresses(address.decode(errors="replace"))
    for device, it in found or told_networks(route.decode(errors="replace"), router.order):
        if it is not None and isinstance(device, str):
            router.addresses.setdefault(device, []).append(it)


def fields_of(table):
    """Yields the fields of each line of a table."""
    for line in table.split(b"\n")[1:]:
        yield [it for it in line.split(b" ") if it]


def rows_of(table, order):
    """Returns the resolved rows by source and group, and the groups with a row of every source."""
    rows, wildcards = {}, set()
    for words in fields_of(table):
        if len(words) < 6 or not all(re.fullmatch(rb"[0-9]{1,20}", it) for it in words[2:6]):
            continue
        group, source = address_word(words[0], order), address_word(words[1], order)
        if group is None or source is None or not GROUPS[0] <= group <= GROUPS[1]:
            continue
        if int(source) == 0:
            wildcards.add(group)
        elif 1 <= source.packed[0] <= 223 and not source.is_loopback:
            rows[source, group] = Row(*map(int, words[2:6]))
    return rows, wildcards


def read_file(folder, name):
    """Returns the file's bytes, none if it isn't there."""
    path = os.path.join(folder, name)
    return read_regular(path, MOST_TABLE) if os.path.lexists(path) else b""


def read_router(folder, name, order):
    """Returns what the router of this name says, of the files in the folder."""
    router = Router(name, "little" if order == "not known" else order)
    for words in fields_of(read_file(folder, f"vif-{name}")):
        if len(words) == 9 and re.fullmatch(rb"[0-9]{1,2}", words[0]) and re.fullmatch(rb"[0-9A-Fa-f]{5,8}", words[6]):
            router.vifs[int(words[0])] = words[1].decode(errors="replace"), int(words[6], 16)
    router.rows, router.wildcards = rows_of(read_file(folder, f"cache-{name}"), router.order)
    read_addresses(router, read_file(folder, f"address-{name}"), read_file(folder, f"route-{name}"))
    return router


class Collected:
    """The lines that mcaudit-collect prints of routers, which are passed on as they come."""

    def __init__(self, is_shown):
        """Takes whether they are passed on."""
        self.is_shown, self.rest, self.orders = is_shown, b"", {}

    def write(self, piece):
        """Takes a piece of what is printed."""
        *lines, self.rest = (self.rest + piece).split(b"\n")
        for found in filter(None, (COLLECTED.match(it.decode("ascii", "replace")) for it in lines)):
            self.orders[found[1]] = found[2]
            if self.is_shown:
                print(found.string, flush=True)


def collect(words, folder, is_first):
    """Has the routers collected into the folder. Returns their names with their byte orders."""
    command = [find_tool("mcaudit-collect"), *words.reach, "--timeout", words.timeout, *["--facts"] * is_first, folder,
               *words.ways]
    collected = Collected(is_first)
    came = run(command, most=MOST_TOLD, into=collected, keeps_words=not is_first, grace=RUNNING.grace)
    if came.status == 5:
        sys.exit(5)
    if came.status not in (0, 1) or came.is_long:
        raise Failed("the routers couldn't be collected")
    return collected.orders


def as_counted(name):
    """Returns what names are sorted by so that those with numbers come as people count, r2 before r10."""
    return [int(it) if number % 2 else it for number, it in enumerate(re.split(r"([0-9]+)", name))]


def ask_routers(words, scratch):
    """Returns the routers in the order of their names, and doubts, which name those that are missing."""
    first, second = os.path.join(scratch, "first"), os.path.join(scratch, "second")
    orders = collect(words, first, True)
    asked = read_routers(words.ways, [words.routers] if words.routers else [])
    routers = [read_router(first, name, orders[name]) for name in sorted(orders, key=as_counted)]
    doubts = [f"{it.name}: could not be asked" for it in asked if it.name not in orders]
    doubts += [f"{it}: its byte order is not known, and taken as little" for it in orders if orders[it] == "not known"]
    if not routers:
        raise Failed("no router could be asked")
    if any(it.rows for it in routers):
        RUNNING.rest(PAUSE)
        collect(words, second, False)
        for router in routers:
            measure_rates(router, first, second)
    return routers, doubts


def measure_rates(router, first, second):
    """Gives the router the rates of its rows, by two readings of its counters."""
    name = f"cache-{router.name}"
    try:
        seconds = (os.stat(f"{second}/{name}").st_mtime_ns - os.stat(f"{first}/{name}").st_mtime_ns) / 1e9
    except FileNotFoundError:
        return
    later, _ = rows_of(read_file(second, name), router.order)
    for key, row in router.rows.items():
        if key not in later or later[key].packets < row.packets or seconds <= 0:
            continue
        packets, octets = later[key].packets - row.packets, max(0, later[key].octets - row.octets)
        taken = max(0, packets - max(0, later[key].strangers - row.strangers))
        router.rates[key] = taken / seconds, octets * 8 * taken / packets / seconds if packets else 0
        if packets:
            router.counted.add(key)
