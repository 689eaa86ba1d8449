"""What hosts ask for and no listed flow answers: each want of each LAN's list has its one place.

A want is a group and a source, or a group and any source (None), by the merged filter that the LAN's list has of the
group. Wants, groups and LANs are told by their numbers, until they are written.
"""
from names import address_of, dotted, some

SHOWN_WANTS = 20
FIRST_GROUP, LAST_GROUP = address_of("224.0.1.0"), address_of("239.255.255.255")
SSM = address_of("232.0.0.0") >> 24
SERVICES = {address_of(group): name for group, name in {
    "224.0.1.1": "NTP", "224.0.1.22": "SLP", "224.0.1.24": "WINS", "224.0.1.35": "SLP", "224.0.1.39": "Auto-RP",
    "224.0.1.40": "Auto-RP", "224.0.1.60": "HP", "224.0.1.75": "SIP", "224.0.1.187": "CoAP", "224.0.23.12": "KNX",
    "224.2.127.254": "SAP", "239.195.255.255": "SAP", "239.255.255.250": "SSDP", "239.255.255.253": "SLP",
    "239.255.255.255": "SAP",
}.items()}


class Range:
    """A range of groups that is left aside."""

    def __init__(self, text):
        group, _, length = text.partition("/")
        self.text, self.first, self.length = text, address_of(group), int(length)

    def has(self, group):
        return (group ^ self.first) >> (32 - self.length) == 0


class Filter:
    """The merged filter of records of one group: does it exclude its sources, or admit them alone."""

    def __init__(self, records):
        excluded = [sources for kind, sources in records if kind == 2]
        included = set().union(*(sources for kind, sources in records if kind == 1))
        self.excludes = bool(excluded)
        self.sources = set.intersection(*excluded) - included if excluded else included

    def admits(self, source):
        return (source in self.sources) != self.excludes

    def sources_wanted(self):
        """The sources of its wants: None is any of those that it admits."""
        return [None] if self.excludes else sorted(filter(is_source, self.sources))


def is_source(address):
    return 1 <= address >> 24 <= 223 and address >> 24 != 127


def filters_of(records):
    """The filter of each group of these records."""
    by_group = {}
    for kind, group, sources in records:
        if FIRST_GROUP <= group <= LAST_GROUP:
            by_group.setdefault(group, []).append((kind, sources))
    return {group: Filter(of) for group, of in by_group.items()}


class Want:
    """A want that nothing answers, and how the LANs that have it filter the group."""

    def __init__(self, domain, group, source, filters):
        self.group, self.source, self.filters = group, source, filters
        self.lans = [domain.lans[lan] for lan in sorted(filters)]
        self.listed = [dotted(flow[0]) for flow in domain.flows if flow[1] == group]
        self.routers, self.none, self.star = [], [], []
        self.has_unknown = bool(domain.left_out)
        for name, tables in zip(domain.routers, domain.tables):
            rows = [row for row in tables.exact.values() if row.group == group and self.is_of(row.origin)]
            if any(forwards(tables, row) for row in rows):
                self.routers.append(name)
            elif rows:
                self.none.append(name)
            elif tables.row_for_every_source(group) is not None:
                self.star.append(name)

    def is_of(self, origin):
        """Whether an entry of this source is one for the want."""
        if self.source is not None:
            return origin == self.source
        return any(of.admits(origin) for of in self.filters.values())

    def what(self):
        """What the routers do with it, in words, and which of them."""
        for words, routers in (("forwarded by", self.routers), ("no outgoing LAN interface in", self.none),
                               ("no entry for it but (*,G) or (*,*) in", self.star)):
            if routers:
                return words, routers
        return "no router with known tables forwards it" if self.has_unknown else "no router forwards it", []

    def remarks(self):
        """What is said behind that: words, and names."""
        found = [("listed for the group:", self.listed)] if self.listed else []
        return found + ([("SSM: routers ignore it", [])] if self.source is None and self.group >> 24 == SSM else [])

    def text(self):
        source = "*" if self.source is None else dotted(self.source)
        told = [" ".join([words, some(names)] if names else [words]) for words, names in (self.what(), *self.remarks())]
        return f"asked {source} {dotted(self.group)} lans {len(self.lans)}: {some(self.lans)}: {'; '.join(told)}"

    def object(self):
        return {"asked": {"group": dotted(self.group), "lans": self.lans, "listed": self.listed, "none": self.none,
                          "routers": self.routers, "source": None if self.source is None else dotted(self.source),
                          "star": self.star}}


def forwards(tables, row):
    """Whether an entry has an outgoing vif with a line, and a device, that is no register vif."""
    return any(tables.device(vif) is not None and not tables.vifs[vif][1] & 4 for vif, _ in row.pairs)


class Asked:
    """The wants of a domain's LANs, but for those that are answered or left aside."""

    def __init__(self, domain, ranges, shows_all):
        self.domain, self.ranges, self.flows = domain, ranges, {flow[:2] for flow in domain.flows}
        self.services, wants = {}, {}
        self.places = set()  # that wants have
        for lan, records in enumerate(domain.reports):
            for group, of in filters_of(records.records).items():
                for source in of.sources_wanted():
                    place = self.place(lan, group, source, of)
                    self.places.add(place)
                    if place == "service":
                        self.services.setdefault(group, {})[domain.lans[lan]] = True
                    elif place == "asked":
                        wants.setdefault((group, -1 if source is None else source), {})[lan] = of
        keys = sorted(wants)
        self.count = sum(map(len, wants.values()))
        shown = keys if shows_all else keys[:SHOWN_WANTS]
        self.wants = [Want(domain, group, None if source == -1 else source, wants[group, source])
                      for group, source in shown]
        self.more = self.count - sum(len(want.filters) for want in self.wants)

    def place(self, lan, group, source, of):
        """Which place a LAN's want has: the first of these that holds."""
        if any(listed == group and of.admits(address) and source in (None, address) for address, listed in self.flows):
            return "answered"
        if source is not None and (dotted(source), lan) in self.domain.sources:
            return "answered by the LAN"
        if any(it.has(group) for it in self.ranges):
            return "left aside"
        if group in SERVICES and all(listed != group for _, listed in self.flows):
            return "service"
        return "asked"

    def text(self):
        lines = [want.text() for want in self.wants]
        lines += [f"asked and {self.more} more"] if self.more else []
        if self.services:
            named = [f"{dotted(group)} {SERVICES[group]}" for group in sorted(self.services)]
            lines.append(f"asked services {len(named)}: {some(named)}")
        return lines

    def objects(self):
        objects = [want.object() for want in self.wants]
        objects += [{"asked_more": {"wants": self.more}}] if self.more else []
        services = [{"group": dotted(group), "lans": list(lans), "name": SERVICES[group]}
                    for group, lans in sorted(self.services.items())]
        return objects + ([{"asked_services": services}] if services else [])
