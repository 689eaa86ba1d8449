"""One reading of a router's counters: its rows of some flows, its vifs, and what its IP and its devices count."""
import contextlib
import dataclasses
import re
import typing

from mcaudit_tools.premises.rows import Rows, vifs_of

NUMBERS = {"IpInReceives", "IpForwDatagrams", "IpFragFails", "IpFragCreates", "IpExtInMcastPkts", "IpExtOutMcastPkts",
           "TcpExtIPReversePathFilter"}
TABLES = {"Ip:", "IpExt:", "TcpExt:"}
SECTIONS = "ip_mr_cache", "ip_mr_vif", "snmp", "netstat", "dev"
NUMBER = re.compile(rb"[0-9]{1,20}")


class Device(typing.NamedTuple):
    """What a device counts."""

    got: int
    got_dropped: int
    sent: int
    sent_dropped: int


@dataclasses.dataclass
class Reading:
    """What a router counted at one time."""

    rows: Rows  # of the flows
    vifs: dict = dataclasses.field(default_factory=dict)  # by number
    numbers: dict = dataclasses.field(default_factory=dict)  # by name
    devices: dict = dataclasses.field(default_factory=dict)  # by name
    boot: "str | None" = None  # which boot of the router it was, where that is known


def numbers_of(lines):
    """Returns those numbers of /proc/net/snmp or netstat that are of use: a line of names, and one of values."""
    found = {}
    for names, values in zip(lines, lines[1:]):
        names, values = names.split(), values.split()
        if names[:1] == values[:1] and names and names[0].decode("ascii", "replace") in TABLES:
            table = names[0][:-1].decode()
            for name, value in zip(names[1:], values[1:]):
                key = table + name.decode("ascii", "replace")
                if key in NUMBERS and NUMBER.fullmatch(value):
                    found[key] = int(value)
    return found


def devices_of(lines):
    """Returns what the devices of /proc/net/dev count."""
    found = {}
    for line in lines:
        name, _, rest = line.partition(b":")
        words = rest.split()
        if len(words) >= 12:
            with contextlib.suppress(ValueError):
                found[name.strip().decode("ascii", "replace")] = Device(*(int(words[it]) for it in (1, 3, 9, 11)))
    return found


def reading_of(sections, wanted, boot=None):
    """Returns the reading that sections have, lists of lines by name, and of which boot of the router it is."""
    return Reading(wanted.rows(sections.get("ip_mr_cache", ())), vifs_of(sections.get("ip_mr_vif", ())),
                   {**numbers_of(sections.get("snmp", [])), **numbers_of(sections.get("netstat", []))},
                   devices_of(sections.get("dev", [])), boot)
