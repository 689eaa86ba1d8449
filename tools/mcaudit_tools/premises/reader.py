"""The facts of one router, as a set has them in facts-NAME: its own words, believed of it alone and in bounds."""
import functools
import ipaddress
import re

from mcaudit_tools.addresses import link_addresses
from mcaudit_tools.premises.routes import MainTable, Route, routes_of
from mcaudit_tools.told import UNREADABLE, Told, json_lists, json_of

ADDRESS_LINE = re.compile(r"\s+inet ([0-9.]+)")
DEVICE_LINE = re.compile(r"\d+: ([^:@ ]+)")
ABOUT = re.compile(r"order (little|big) uid (\d{1,10}) ")
BOOT = re.compile(r".* boot ([0-9a-f-]{36})")
ODD_RULE = re.compile(r"\bfrom (?!all\b)|\b(?:tos|dsfield|dscp|ipproto|sport|dport|uidrange|tun_id)\b")
NUMBERS = {10: re.compile(r"[0-9]{1,10}"), 16: re.compile(r"0x[0-9a-fA-F]{1,8}")}


class Facts(Told):
    """What a router says of itself."""

    def __init__(self, text):
        """Takes the text of its facts."""
        super().__init__(text)
        about = ABOUT.match(self.text("about"))
        self.order, self.is_root = about[1] if about else None, bool(about) and about[2] == "0"
        self.values = {}  # by path, all that there are
        for line in self.lines("settings") + self.lines("links"):
            path, _, value = line.partition(" ")
            self.values.setdefault(path, []).append(value)
        self.addresses = self.read_addresses()

    @property
    def boot(self):
        """The identity of the router's boot, or None."""
        found = BOOT.match(self.text("about"))
        return found[1] if found else None

    def is_asked(self, name):
        """Whether a daemon that runs was asked for a section."""
        return name in self.sections and not any(b"is not running" in it for it in self.sections[name])

    def setting(self, device, name):
        """Returns a number of /proc/sys of a device, or None."""
        return self.number(f"/proc/sys/net/ipv4/conf/{device}/{name}")

    def link(self, device, name):
        """Returns what /sys has of a device, or None."""
        return self.values.get(f"/sys/class/net/{device}/{name}", [None])[0]

    def ports(self, device):
        """Returns the ports of a bridge."""
        return self.values.get(f"/sys/class/net/{device}/port", [])

    def number(self, path, base=10):
        """Returns the number that a file has, or None."""
        text = self.values.get(path, [""])[0]
        return int(text, base) if NUMBERS[base].fullmatch(text) else None

    def read_addresses(self):
        """Returns the addresses of each device; None where they aren't known."""
        if self.fault("address") is not None:
            return None
        found, text = {}, self.text("address")
        if text.startswith("["):
            try:
                links = json_of(text)
                for link in links:
                    found.setdefault(link["ifname"], [])
                for device, it in link_addresses(links):
                    found[device] += [str(it.local)] if it is not None and it.local is not None else []
            except UNREADABLE:
                return None
            return found
        device = None
        for line in self.lines("address"):
            head, address = DEVICE_LINE.match(line), ADDRESS_LINE.match(line)
            if head:
                device = head[1]
                found.setdefault(device, [])
            elif address and device is not None:
                found[device].append(address[1])
        return found or None

    @functools.cached_property
    def own_addresses(self):
        """All addresses that are the router's own."""
        return {it for found in (self.addresses or {}).values() for it in found}

    @functools.cached_property
    def routes(self):
        """The route back to each source that was asked for."""
        return routes_of(self.lines("routes"), json_lists)

    @functools.cached_property
    def main_table(self):
        """The routes of the main table."""
        return MainTable(self.lines("route"), self.order or "little")

    @functools.cached_property
    def odd_rule(self):
        """The first rule that asks for more than what a route is asked by, or nothing."""
        odd = next(filter(ODD_RULE.search, self.lines("rule")), "")
        return " ".join(odd.split())[:80]

    def route_back(self, source):
        """Returns the route back to the source, or None where it isn't known."""
        if source in self.routes:
            return self.routes[source]
        if source in self.own_addresses:
            return Route("local", ["lo"])
        return self.main_table.route_back(int(ipaddress.IPv4Address(source)))
