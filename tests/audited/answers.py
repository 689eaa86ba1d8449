#!/usr/bin/env python3
"""What `audit` has to say of a folder, worked out from its definitions and not from the program.

  python3 answers.py FOLDER [OPTION ..]      prints what `mcaudit audit FOLDER OPTION ..` has to print

Packets fly copy by copy, as the replayer's definitions have it, and each explanation is looked up in the tables. The
files of the folder have to be such as are not refused.
"""
import json
import os
import struct
import sys
import tomllib
from collections import deque

from asked import Asked, Range
from names import address_of, dotted, escaped, some

SHOWN_LINES = 40
SHOWN_PAIRS = 20
OPTIONS = ["--travel", "--faults", "--unlisted", "--strict", "--json"]


class Row:
    """A row of a cache. Its origin is 0 where it is one for every source, and `incoming` None where it is unresolved."""

    def __init__(self, group, origin, incoming, pairs):
        self.group, self.origin, self.incoming, self.pairs = group, origin, incoming, pairs

    def threshold(self, vif):
        return dict(self.pairs).get(vif)


class Tables:
    """The two tables of a router."""

    def __init__(self, order, vifs, cache):
        self.vifs = {}
        for line in vifs.split(b"\n")[1:-1]:
            words = line.split(b" ")
            words = [word for word in words if word]
            self.vifs[int(words[0])] = (words[1], int(words[6], 16))
        self.rows = []
        for line in cache.split(b"\n")[1:-1]:
            words = [word for word in line.split(b" ") if word]
            group, origin = (struct.unpack(">I" if order == "big" else "<I", bytes.fromhex(word.decode()))[0]
                             for word in words[:2])
            pairs = sorted(tuple(map(int, word.split(b":"))) for word in words[6:])
            self.rows.append(Row(group, origin, None if words[2] == b"-1" else int(words[2]), pairs))
        self.exact = {(row.origin, row.group): row for row in self.rows if row.incoming is not None and row.origin}
        self.every = {}
        for row in self.rows:
            if row.incoming is not None and not row.origin:
                self.every.setdefault(row.group, row)
        self.unresolved = {(row.origin, row.group) for row in self.rows if row.incoming is None}

    def device(self, vif):
        """The device of a vif, None where it has none, or no line."""
        device = self.vifs.get(vif, (b"none", 0))[0]
        return None if device == b"none" else device

    def index_of(self, device):
        return next((vif for vif, (name, _) in self.vifs.items() if name == device), None)

    def row_for_every_source(self, group):
        return self.every.get(group, self.every.get(0))


class Records:
    """The records of a LAN's reports."""

    def __init__(self, text):
        self.records = []
        for line in text.split(b"\n")[:-1]:
            message = bytes.fromhex(line.decode())
            if message[0] in (0x12, 0x16):
                self.records.append((2, struct.unpack(">I", message[4:8])[0], set()))
            elif message[0] == 0x22:
                self.read_records(message)

    def read_records(self, message):
        place = 8
        for _ in range(struct.unpack(">H", message[6:8])[0]):
            kind, auxiliary, count, group = struct.unpack(">BBHI", message[place:place + 8])
            sources = set(struct.unpack(f">{count}I", message[place + 8:place + 8 + 4 * count]))
            self.records.append((kind, group, sources))
            place += 8 + 4 * count + 4 * auxiliary

    def wants(self, source, group):
        return any(of == group and (source in sources if kind == 1 else kind == 2 and source not in sources)
                   for kind, of, sources in self.records)


class Domain:
    """A folder's files. LANs, routers and flows are told by their numbers, from 0."""

    def __init__(self, folder, left_out=()):
        def read(name):
            with open(os.path.join(folder, name), "rb") as file:
                return file.read()
        topology = tomllib.loads(read("topology").decode())
        self.lans = topology["lans"]
        self.routers = [router["name"] for router in topology.get("router", [])]
        self.orders = [router.get("order", "little") for router in topology.get("router", [])]
        self.left_out = [number for number, name in enumerate(self.routers) if name in left_out]
        self.interfaces = [(self.routers.index(i["router"]), i["device"].encode(), self.lans.index(i["lan"]))
                           for i in topology.get("interface", [])]
        self.lan_of = {(router, device): lan for router, device, lan in self.interfaces}
        sources = {s["address"]: self.lans.index(s["lan"]) for s in topology.get("source", [])}
        self.sources = list(sources.items())
        self.flows = [(address_of(f["source"]), address_of(f["group"]), f["ttl"], sources[f["source"]])
                      for f in topology["flow"]]
        self.tables = []
        for number, (name, order) in enumerate(zip(self.routers, self.orders)):
            known = number not in self.left_out
            self.tables.append(Tables(order, read(f"vif-{name}") if known else b"",
                                      read(f"cache-{name}") if known else b""))
        self.reports = [Records(read(f"igmp-{lan}")) for lan in self.lans]
        self.on_lan = [[] for _ in self.lans]
        for router, tables in enumerate(self.tables):
            for vif in sorted(tables.vifs):
                lan = self.placed(router, vif)
                if lan is not None:
                    self.on_lan[lan].append((router, vif))

    def placed(self, router, vif):
        device, flags = self.tables[router].vifs.get(vif, (b"none", 0))
        return None if flags & 5 or device == b"none" else self.lan_of.get((router, device))

    def why_unplaced(self, router, vif):
        if vif not in self.tables[router].vifs:
            return "no_vif_line"
        device, flags = self.tables[router].vifs[vif]
        if flags & 4:
            return "register_vif"
        if flags & 1:
            return "tunnel"
        return "no_device" if device == b"none" else "on_no_lan"

    def exact(self, router, flow):
        return self.tables[router].exact.get(flow[:2])

    def open_row(self, router, flow):
        """The row for every source that makes a copy stray, None where there is an exact one or none."""
        return None if self.exact(router, flow) else self.tables[router].row_for_every_source(flow[1])

    def wanting(self, flow):
        return [lan for lan, records in enumerate(self.reports) if records.wants(flow[0], flow[1])]


class Travel:
    """The travel of one packet of a flow, the first waiting copy first, up to the first finding, or past all strays: then
    up to the first second copy, or until nothing waits."""

    def __init__(self, domain, flow, ttl, is_past_strays=False):
        self.domain, self.flow, self.is_past_strays = domain, flow, is_past_strays
        self.carried, self.waiting, self.strays, self.events = [], deque(), [], []
        self.put(flow[3], ttl, None)
        self.finding = self.found()
        while self.finding is None:
            self.handle()
            self.finding = self.found()

    def put(self, lan, ttl, sender):
        self.carried.append((lan, ttl, sender))
        self.waiting.extend((router, vif, ttl) for router, vif in self.domain.on_lan[lan] if (router, vif) != sender)

    def handle(self):
        router, vif, ttl = self.waiting.popleft()
        event = {"onto": [], "router": self.domain.routers[router], "ttl": ttl, "vif": vif}
        row = self.domain.exact(router, self.flow)
        if row is None:
            is_open = self.domain.open_row(router, self.flow) is not None
            if is_open:
                self.strays.append((router, vif))
            self.events.append(event | {"outcome": "open" if is_open else "no row"})
        elif row.incoming != vif:
            self.events.append(event | {"outcome": "other vif"})
        else:
            counts = [0, 0]
            for out, threshold in row.pairs:
                if ttl > threshold:
                    lan = self.domain.placed(router, out)
                    counts[lan is None] += 1
                    event["onto"].append(out)
                    if lan is None:
                        self.strays.append((router, out))
                    else:
                        self.put(lan, ttl - 1, (router, out))
            self.events.append(event | {"outcome": "sent", "copies": counts[0], "strays": counts[1]})

    def first_on(self, lan):
        return next((copy for copy in self.carried if copy[0] == lan), None)

    def second(self):
        seen = set()
        for copy in self.carried:
            if copy[0] in seen:
                return copy
            seen.add(copy[0])
        return None

    def hops_back(self, copy):
        """The hops of the walk back from a copy: (from, router, incoming, out, threshold, onto), up to the source's."""
        hops = []
        while copy[2] is not None:
            router, vif = copy[2]
            row = self.domain.exact(router, self.flow)
            lan = self.domain.placed(router, row.incoming)
            hops.append((lan, router, row.incoming, vif, row.threshold(vif), copy[0]))
            copy = self.first_on(lan)
        return hops

    def found(self):
        second = self.second()
        if second is not None:
            met = any(hop[0] == second[0] for hop in self.hops_back(second))
            return ("Loop" if met else "Duplicate", second[0])
        if self.strays and not self.is_past_strays:
            return ("Stray", *self.strays[0])
        if self.waiting:
            return None
        reached = {copy[0] for copy in self.carried}
        missed = [lan for lan in self.domain.wanting(self.flow) if lan not in reached]
        return ("Missed", missed[0]) if missed else ("Clean",)

    def need(self):
        """The greatest need among the copies that the finding rests on, None where it rests on none."""
        kind, *place = self.finding
        if kind in ("Loop", "Duplicate"):
            return max(need_of(self.hops_back(copy)) for copy in (self.first_on(place[0]), self.second()))
        if kind != "Stray":
            return None
        router, vif = place
        row = self.domain.exact(router, self.flow)
        hops = self.hops_back(self.first_on(self.domain.placed(router, vif if row is None else row.incoming)))
        return need_of(hops) if row is None else max(need_of(hops), len(hops) + row.threshold(vif) + 1)


def need_of(hops):
    """The least time to live with which packets get through hops, which are told from the last one on."""
    need = 1
    for place, hop in enumerate(reversed(hops)):
        need = max(need, place + hop[4] + 1)
    return need


class Explained:
    """What is told of a flow's fault, each line as the object of its JSON."""

    def __init__(self, domain, flow, greatest, travel, has_remedy):
        self.domain, self.flow, self.greatest, self.travel, self.has_remedy = domain, flow, greatest, travel, has_remedy
        self.lines = []
        kind = travel.finding[0]
        if kind == "Duplicate":
            self.duplicate(travel.finding[1])
        elif kind == "Loop":
            self.loop(travel.finding[1])
        elif kind == "Stray":
            self.stray(*travel.finding[1:])
        elif travel is greatest:
            self.search(travel.finding[1])
        else:
            self.least_ttl(travel.finding[1])

    # ---- names and rows

    def lan(self, lan):
        return self.domain.lans[lan]

    def router(self, router):
        return self.domain.routers[router]

    def device(self, router, vif):
        vifs = self.domain.tables[router].vifs
        return escaped(vifs[vif][0]) if vif in vifs else None

    def row(self, router, row):
        def address(number):
            return dotted(number) if number else "*"
        return {"from": {"device": self.device(router, row.incoming), "vif": row.incoming}, "group": address(row.group),
                "router": self.router(router), "source": address(row.origin),
                "to": [{"device": self.device(router, vif), "threshold": threshold, "vif": vif}
                       for vif, threshold in row.pairs]}

    def exact(self, router):
        return self.row(router, self.domain.exact(router, self.flow))

    def tell(self, kind, **fields):
        self.lines.append({"kind": kind} | fields)

    # ---- two copies, and ways out

    def sent_onto(self, copy):
        if copy[2] is not None:
            router, vif = copy[2]
            self.tell("sent_onto", lan=self.lan(copy[0]), router=self.router(router), device=self.device(router, vif),
                      vif=vif, row=self.exact(router))

    def take_out(self, lan):
        """The remedy, if any."""
        if not self.has_remedy:
            return
        router, vif = self.travel.second()[2]
        self.tell("take_out", lan=self.lan(lan), router=self.router(router), device=self.device(router, vif), vif=vif,
                  least=need_of(self.travel.hops_back(self.travel.first_on(lan))), ttl=self.flow[2])

    def duplicate(self, lan):
        self.sent_onto(self.travel.first_on(lan))
        self.sent_onto(self.travel.second())
        self.take_out(lan)

    def loop(self, lan):
        hops = []
        for hop in self.travel.hops_back(self.travel.second()):
            hops.append(hop)
            if hop[0] == lan:
                break
        for start, router, incoming, vif, _, onto in reversed(hops):
            self.tell("circle", from_lan=self.lan(start), to_lan=self.lan(onto), router=self.router(router),
                      from_device=self.device(router, incoming), from_vif=incoming,
                      to_device=self.device(router, vif), to_vif=vif, row=self.exact(router))
        self.take_out(lan)

    def stray(self, router, vif):
        place = {"router": self.router(router), "device": self.device(router, vif), "vif": vif}
        row = self.domain.exact(router, self.flow)
        if row is None:
            self.tell("only_every_source", **place, row=self.row(router, self.domain.open_row(router, self.flow)))
        else:
            self.tell(self.domain.why_unplaced(router, vif), **place)
            self.tell("row", row=self.row(router, row))

    def least_ttl(self, lan):
        hops = self.greatest.hops_back(self.greatest.first_on(lan))
        ttl = self.flow[2]
        self.tell("least_ttl", lan=self.lan(lan), least=need_of(hops), ttl=ttl)
        for place, (_, router, _, vif, threshold, _) in enumerate(reversed(hops)):
            if ttl - place <= threshold:
                self.tell("stopped_at", router=self.router(router), device=self.device(router, vif), vif=vif,
                          threshold=threshold, ttl=ttl - place)
                return

    # ---- the search for a missed LAN

    def search(self, lan):
        self.routers, lines, self.lines = [], [], []
        met, looked = [lan], 0
        while looked < len(met):
            for more in self.look_at(met[looked]):
                if more not in met:
                    met.append(more)
            looked += 1
        lines, self.lines = self.lines, []
        outcomes = {}
        for event in self.travel.events:
            outcomes.setdefault(event["router"], set()).add(event["outcome"])
        names = [self.router(router) for router in self.routers]
        far = [name for name in names if "sent" in outcomes.get(name, ())]
        self.tell("gets_as_far_as", routers=far)
        self.tell("not_taken", routers=[name for name in names
                                        if name not in far and outcomes.get(name, set()) & {"no row", "other vif"}])
        self.lines += lines

    def look_at(self, lan):
        """Tells of a LAN, and returns the LANs that are to be looked at after it."""
        domain, told, later, expecting = self.domain, len(self.lines), [], []
        carried = {copy[0] for copy in self.travel.carried}
        here = sorted({router for router, _, on in domain.interfaces if on == lan})
        for router in here:
            if router not in self.routers:
                self.routers.append(router)
            devices = [device for of, device, on in domain.interfaces if of == router and on == lan]
            place = {"lan": self.lan(lan), "router": self.router(router)}
            if router in domain.left_out:
                self.tell("left_out", **place)
                continue
            row = domain.exact(router, self.flow)
            if row is None:
                later += self.without_row(router, place, carried)
            elif domain.placed(router, row.incoming) is None:
                kind = {"no_vif_line": "from_no_vif_line", "register_vif": "from_register", "tunnel": "from_tunnel",
                        "no_device": "from_no_device", "on_no_lan": "from_no_lan"}
                self.tell(kind[domain.why_unplaced(router, row.incoming)], **place,
                          from_device=self.device(router, row.incoming), from_vif=row.incoming, row=self.row(router, row))
            elif domain.placed(router, row.incoming) == lan:
                expecting.append(router)
            else:
                later += self.with_row(router, row, devices, place, carried, lan)
            self.without_vif(router, devices, place)
        if expecting:
            self.tell("expected_from_here", lan=self.lan(lan), routers=[self.router(router) for router in expecting])
        if len(self.lines) == told:
            self.tell("no_router", lan=self.lan(lan))
        elif not set(here) & set(domain.left_out) and not any(self.sends_onto(router, lan) for router in here):
            self.tell("no_sender", lan=self.lan(lan))
        return later

    def without_row(self, router, place, carried):
        every = self.domain.open_row(router, self.flow)
        if every is not None:
            self.tell("every_source", **place, row=self.row(router, every))
            start = self.domain.placed(router, every.incoming)
            return [start] if start is not None and start not in carried else []
        is_unresolved = self.flow[:2] in self.domain.tables[router].unresolved
        self.tell("unresolved" if is_unresolved else "no_row", **place)
        return []

    def with_row(self, router, row, devices, place, carried, lan):
        domain, later = self.domain, []
        start = domain.placed(router, row.incoming)
        for device in devices:
            vif = domain.tables[router].index_of(device)
            if vif is None or domain.placed(router, vif) != lan:
                continue
            at = place | {"device": self.device(router, vif), "vif": vif}
            threshold = row.threshold(vif)
            if threshold is None:
                self.tell("does_not_send", **at, from_lan=self.lan(start), carried=start in carried, row=self.row(router, row))
            elif start in carried:
                ttl = max(copy[1] for copy in self.travel.carried if copy[0] == start)
                self.tell("stopped", **at, threshold=threshold, ttl=ttl, row=self.row(router, row))
            else:
                self.tell("waits_for", **at, from_lan=self.lan(start), from_device=self.device(router, row.incoming),
                          from_vif=row.incoming, row=self.row(router, row))
                later.append(start)
        return later

    def without_vif(self, router, devices, place):
        for device in devices:
            vif = self.domain.tables[router].index_of(device)
            if vif is None:
                self.tell("no_vif", **place, device=escaped(device))
            elif self.domain.tables[router].vifs[vif][1] & 5:
                self.tell("not_multicast", **place, device=escaped(device))

    def sends_onto(self, router, lan):
        row = self.domain.exact(router, self.flow)
        devices = {device for of, device, on in self.domain.interfaces if of == router and on == lan}
        return row is not None and any(self.domain.tables[router].device(vif) in devices for vif, _ in row.pairs)


# ---- the text of a line

UNPLACED = {
    "no_vif_line": "has no line in vif-{router}",
    "register_vif": "is PIM's register vif: copies go to the rendezvous point until its Register-Stop arrives; if it "
                    "persists, check why none arrives, and whether {router} is the rendezvous point itself",
    "tunnel": "is a DVMRP tunnel",
    "no_device": "has lost its device",
    "on_no_lan": "is on no listed LAN",
}

EXPECTS = {
    "from_no_vif_line": "which has no line in vif-{router}",
    "from_register": "PIM's register vif",
    "from_tunnel": "a DVMRP tunnel",
    "from_no_device": "which has lost its device",
    "from_no_lan": "which is on no listed LAN",
}


def device_text(device, vif):
    return f"vif/{vif}" if device in (None, "none") else device


def vif_text(at):
    return device_text(at["device"], at["vif"])


def row_text(row):
    to = "".join(" " + vif_text(at) + ("" if at["threshold"] == 1 else f":{at['threshold']}") for at in row["to"])
    return (f"entry ({row['source']},{row['group']}) from {vif_text(row['from'])} to{to or ' none'} "
            f"in cache-{row['router']}")


def sentences_of(line):
    """The lines of text of one line's object, without the two spaces that they begin with."""
    kind, router, lan = line["kind"], line.get("router"), line.get("lan")
    row = row_text(line["row"]) if "row" in line else None
    at = vif_text(line) if "vif" in line else line.get("device")
    if kind == "sent_onto":
        return [f"forwarded onto {lan} by {router} {at}: {row}"]
    if kind == "circle":
        return [f"{line['from_lan']} to {line['to_lan']} through {router}, "
                f"{device_text(line['from_device'], line['from_vif'])} to "
                f"{device_text(line['to_device'], line['to_vif'])}: {row}"]
    if kind == "take_out":
        cost = "every LAN reached now is still reached"
        if line["least"] > line["ttl"]:
            cost = (f"packets sent with less than ttl {line['least']} may then not reach {lan} and LANs behind it, and "
                    f"this flow is listed with ttl {line['ttl']}")
        return [f"fix: remove {at} from this entry of {router}; {cost}", "then audit again"]
    if kind in UNPLACED:
        return [f"{at} of {router} " + UNPLACED[kind].format(router=router)]
    if kind == "row":
        return [row]
    if kind == "only_every_source":
        return [f"a copy arrives at {router} {at}, which has no resolved (S,G) entry for it, but one for every source: "
                f"{row}", "this may be healthy: mcaudit audits (S,G) trees only"]
    if kind == "least_ttl":
        return [f"{lan} is reached by packets sent with ttl {line['least']} or more; this flow is listed with ttl "
                f"{line['ttl']}"]
    if kind == "stopped_at":
        return [f"stopped at {router} {at}: ttl {line['ttl']} is not above threshold {line['threshold']}"]
    return [f"{lan}: " + searched_text(line, kind, router, at, row)]


def searched_text(line, kind, router, at, row):
    """The text of a line of the search behind its LAN."""
    if kind in EXPECTS:
        return (f"{router} expects it from {device_text(line['from_device'], line['from_vif'])}, "
                + EXPECTS[kind].format(router=router) + f": {row}")
    if kind == "does_not_send":
        if line["carried"]:
            return f"{router} receives it from {line['from_lan']} and does not forward it to {at}: {row}"
        return (f"{router} expects it from {line['from_lan']}, which by the known tables does not carry it either, and does "
                f"not forward it to {at}: {row}")
    return {
        "left_out": lambda: f"{router} is excluded: its tables are unknown",
        "no_row": lambda: f"{router} has no entry for this flow",
        "unresolved": lambda: f"{router} has only an unresolved entry: its routing daemon has not answered yet",
        "every_source": lambda: f"{router} has no resolved (S,G) entry for this flow, but one for every source, which is "
                                f"not audited: {row}",
        "stopped": lambda: f"{router} is stopped at {at}: ttl {line['ttl']} is not above threshold {line['threshold']}",
        "waits_for": lambda: f"{router} expects it from {line['from_lan']} at "
                             f"{device_text(line['from_device'], line['from_vif'])}: {row}",
        "no_vif": lambda: f"{router} has no vif for {at}",
        "not_multicast": lambda: f"{router} uses {at} as a DVMRP tunnel or register vif",
        "expected_from_here": lambda: "expected from here by " + some(line["routers"]),
        "no_router": lambda: "no router is on this LAN",
        "no_sender": lambda: "no entry for this flow forwards onto it",
    }[kind]()


def reach_sentences(far, not_taken):
    """What a search comes to: the sentences of its two objects."""
    if not far and not not_taken:
        return [[], ["by the known tables no router of this search receives it"]]
    return [["reaches: " + some(far)] if far else [],
            ["reaches, and is taken by no entry of: " + some(not_taken)] if not_taken else []]


def sentences_of_all(lines):
    """The sentences of each object of an explanation."""
    if lines and lines[0]["kind"] == "gets_as_far_as":
        return reach_sentences(lines[0]["routers"], lines[1]["routers"]) + [sentences_of(line) for line in lines[2:]]
    return [sentences_of(line) for line in lines]


def explanation_text(lines):
    """The lines of an explanation."""
    each = sentences_of_all(lines)
    if not lines or lines[0]["kind"] != "gets_as_far_as":
        return [text for texts in each for text in texts]
    searched = [text for texts in each[2:] for text in texts]
    rest = len(searched) - SHOWN_LINES
    return each[0] + each[1] + searched[:SHOWN_LINES] + ([f"and {rest} more lines"] if rest > 0 else [])


def with_text(lines):
    """The objects of an explanation, each with its sentences."""
    return [line | {"text": "\n".join(texts)} for line, texts in zip(lines, sentences_of_all(lines))]


# ---- the whole answer

def finding_text(domain, finding):
    kind, *place = finding
    names = [domain.lans[place[0]]] if len(place) == 1 else [domain.routers[place[0]], str(place[1])] if place else []
    return " ".join([kind, *names])


def finding_object(domain, finding):
    kind, *place = finding
    names = {"lan": domain.lans[place[0]]} if len(place) == 1 else (
        {"router": domain.routers[place[0]], "vif": place[1]} if place else {})
    return {"kind": kind} | names


class Behind:
    """What is behind the stray that a travel of a flow ended with: what the same run shows as it goes on."""

    def __init__(self, domain, flow, ttl, stray):
        self.domain, travel = domain, Travel(domain, flow, ttl, is_past_strays=True)
        self.finding, self.why, self.shown_from, self.strays, self.open, self.missed = None, [], None, [], [], []
        if travel.second() is not None:
            self.finding = travel.finding
            self.why = Explained(domain, flow, travel, travel, False).lines
            self.shown_from = travel.need() if ttl == 255 != flow[2] else None
            return
        pairs = list(dict.fromkeys(travel.strays))
        self.strays = [pair for pair in pairs if pair != stray and domain.exact(pair[0], flow) is not None]
        self.open = list(dict.fromkeys(router for router, _ in pairs if domain.exact(router, flow) is None))
        if not self.open and not domain.left_out:
            reached = {copy[0] for copy in travel.carried}
            self.missed = [lan for lan in domain.wanting(flow) if lan not in reached]

    def kinds(self):
        """The kinds of lines that it has."""
        kinds = {self.finding[0]} if self.finding else set()
        kinds |= {name for name in ("shown_from", "strays", "open", "missed") if getattr(self, name)}
        return {f"behind {kind}" for kind in kinds or {"nothing"}}

    def names(self):
        """The names that it gives: those of open routers, and those of missed LANs."""
        return [self.domain.routers[router] for router in self.open], [self.domain.lans[lan] for lan in self.missed]

    def text(self):
        if self.finding:
            lines = [f"    {line}" for line in explanation_text(self.why)]
            lines += [f"    shown by packets sent with ttl {self.shown_from} or more"] if self.shown_from else []
            return [f"  behind it: {finding_text(self.domain, self.finding)}", *lines]
        devices = [self.domain.tables[router].device(vif) for router, vif in self.strays]
        strays = [f"{self.domain.routers[router]} {escaped(device) if device else f'vif/{vif}'}"
                  for (router, vif), device in zip(self.strays, devices)]
        unknown, missed = self.names()
        told = (("also leaves by ", strays, ", "), ("not known past ", unknown, " "),
                ("missed, unless what leaves there reaches it: ", missed, " "))
        return [f"  behind it: {words}{some(names, between)}" for words, names, between in told if names]

    def object(self):
        unknown, missed = self.names()
        return {"finding": self.finding and finding_object(self.domain, self.finding), "missed": missed, "open": unknown,
                "shown_from": self.shown_from, "why": with_text(self.why),
                "strays": [{"router": self.domain.routers[router], "vif": vif} for router, vif in self.strays]}


class Answer:
    """What is said of one flow."""

    def __init__(self, domain, number, with_events):
        self.domain, self.flow = domain, domain.flows[number]
        self.names = {"flow": number + 1, "group": dotted(self.flow[1]), "source": dotted(self.flow[0]), "ttl": self.flow[2]}
        self.wanted = domain.wanting(self.flow)
        greatest = travel = Travel(domain, self.flow, 255)
        if greatest.finding[0] == "Clean":
            travel = Travel(domain, self.flow, self.flow[2])
        self.found_ttl = 255 if travel is greatest else self.flow[2]
        self.is_clean = travel.finding[0] == "Clean"
        self.travel, self.with_events = travel, with_events
        if self.is_clean:
            self.right = None if domain.left_out else True
            self.entries = [entry_of(domain, greatest, copy) for copy in sorted(greatest.carried, key=lambda copy: copy[0])]
        else:
            self.why = Explained(domain, self.flow, greatest, travel, not domain.left_out).lines
            reached = {copy[0] for copy in travel.carried}
            self.also = [lan for lan in self.wanted if lan not in reached and lan != travel.finding[1]] if (
                travel.finding[0] == "Missed") else []
            may_be_right = travel is greatest and any(line["kind"] == "left_out" for line in self.why)
            self.right = None if may_be_right else False
            self.shown_from = travel.need() if travel is greatest and self.flow[2] != 255 else None
            self.at_ttl = self.found_at_ttl()
            self.behind = Behind(domain, self.flow, self.found_ttl, travel.finding[1:]) if (
                travel.finding[0] == "Stray") else None

    def found_at_ttl(self):
        """What is found with the flow's own TTL, None where that isn't told."""
        if not self.shown_from or self.shown_from <= self.flow[2]:
            return None
        finding = Travel(self.domain, self.flow, self.flow[2]).finding
        return None if self.domain.left_out and finding[0] in ("Clean", "Missed") else finding

    def text(self):
        words = f"flow {self.names['source']} {self.names['group']} ttl {self.names['ttl']}"
        lans = self.domain.lans
        if self.is_clean:
            said = "no fault known" if self.domain.left_out else "yes"
            names = [lans[lan] for lan in self.wanted]
            return [f"{words} {said} copies {len(self.entries)}",
                    f"  wanted {len(names)}: " + (some(names) if names else "no report asks for it")]
        state = "unknown" if self.right is None else "wrong"
        lines = [f"{words} {state}: {finding_text(self.domain, self.travel.finding)}"]
        lines += [f"  shown by packets sent with ttl {self.shown_from} or more"] if self.shown_from else []
        lines += [f"  with this flow's ttl {self.flow[2]}: {finding_text(self.domain, self.at_ttl)}"] if self.at_ttl else []
        lines += [f"  {line}" for line in explanation_text(self.why)]
        lines += ["  also missed: " + some([lans[lan] for lan in self.also])] if self.also else []
        lines += self.behind.text() if self.behind else []
        return lines + ([event_text(event) for event in self.travel.events] if self.with_events else [])

    def object(self, trees):
        """Its object, and before it that of its way, where that is a new one."""
        lans = self.domain.lans
        if self.is_clean:
            tree, new = json.dumps(self.entries), []
            if tree not in trees:
                trees[tree] = len(trees)
                new = [{"entries": self.entries, "tree": trees[tree]}]
            return new + [self.names | {"copies": len(self.entries), "right": self.right, "tree": trees[tree],
                                        "wanted": [lans[lan] for lan in self.wanted]}]
        events = {"events": self.travel.events} if self.with_events else {}
        return [self.names | events | {"also": [lans[lan] for lan in self.also],
                                       "at_ttl": self.at_ttl and finding_object(self.domain, self.at_ttl),
                                       "behind": self.behind and self.behind.object(),
                                       "finding": finding_object(self.domain, self.travel.finding),
                                       "found_ttl": self.found_ttl, "right": self.right, "shown_from": self.shown_from,
                                       "wanted": [lans[lan] for lan in self.wanted], "why": with_text(self.why)}]


def event_text(event):
    outcome = event["outcome"]
    if outcome == "sent":
        outcome = f"sent {event['copies']} strayed {event['strays']}"
    return f"event {event['router']} {event['vif']} ttl {event['ttl']} {outcome}"


def entry_of(domain, travel, copy):
    hops = travel.hops_back(copy)
    router, vif = copy[2] or (None, None)
    return {"from_vif": hops[0][2] if hops else None, "lan": domain.lans[copy[0]], "need": need_of(hops),
            "rank": len(hops), "router": None if router is None else domain.routers[router], "vif": vif}


def unlisted_rows(domain):
    """The routers of each pair that is no flow's, the lowest pair first."""
    listed = {flow[:2] for flow in domain.flows}
    routers = {}
    for number, tables in enumerate(domain.tables):
        for source, group in tables.exact:
            if (source, group) not in listed:
                routers.setdefault((group, source), []).append(domain.routers[number])
    return sorted(routers.items())


def domain_object(domain, words):
    interfaces = []
    for router, tables in enumerate(domain.tables):
        for vif, (device, _) in sorted(tables.vifs.items()):
            lan = domain.placed(router, vif)
            interfaces.append({"device": escaped(device), "lan": None if lan is None else domain.lans[lan],
                               "router": domain.routers[router], "vif": vif})
    interfaces += [{"device": escaped(device), "lan": domain.lans[lan], "router": domain.routers[router], "vif": None}
                   for router, device, lan in domain.interfaces if domain.tables[router].index_of(device) is None]
    routers = [{"name": name, "order": order} for name, order in zip(domain.routers, domain.orders)]
    return {"domain": {"interfaces": interfaces, "lans": domain.lans, "routers": routers,
                       "sources": [{"address": address, "lan": domain.lans[lan]} for address, lan in domain.sources]},
            "format": 2, "words": words}


class Audit:
    """The whole answer: its lines of text, its objects, and the status."""

    def __init__(self, folder, options, left_out, ranges):
        self.domain = domain = Domain(folder, left_out)
        self.ranges = sorted(map(Range, ranges), key=lambda it: (it.first, it.length))
        self.options, self.left_out = options, [domain.routers[number] for number in domain.left_out]
        self.answers = [Answer(domain, number, "--travel" in options) for number in range(len(domain.flows))]
        rights = [answer.right for answer in self.answers]
        unwanted = sum(answer.is_clean and not answer.wanted for answer in self.answers)
        self.asked = Asked(domain, self.ranges, "--unlisted" in options)
        self.counts = {"asked": self.asked.count, "flows": len(rights), "right": rights.count(True),
                       "unknown": rights.count(None), "unwanted": unwanted, "wrong": rights.count(False)}
        self.is_yes = all(rights) and not left_out
        self.strict = []
        if "--strict" in options and self.is_yes:
            self.strict = [f"  strict: {count} {what}, status 1" for count, what in (
                (unwanted, "flows that nobody wants"), (self.asked.count, "wants that no flow answers")) if count]
        self.status = 0 if self.is_yes and not self.strict else 1
        self.shown = [answer for answer in self.answers
                      if "--faults" not in options or not answer.is_clean or not answer.wanted]
        pairs = unlisted_rows(domain)
        self.unlisted = pairs if "--unlisted" in options else pairs[:SHOWN_PAIRS]
        self.further = sum(len(routers) for _, routers in pairs[len(self.unlisted):])

    def text(self):
        lines = [line for answer in self.shown for line in answer.text()]
        for (group, source), routers in self.unlisted:
            lines.append(f"unlisted {dotted(source)} {dotted(group)} routers {len(routers)}: {some(routers)}")
            if not 224 <= group >> 24 <= 239:
                lines.append("  no multicast group: is the byte order of these routers right in the topology?")
        lines += [f"unlisted and {self.further} further rows"] if self.further else []
        lines += self.asked.text()
        lines += [f"excluded {router}" for router in self.left_out]
        counts = self.counts
        lines.append(f"summary flows {counts['flows']} right {counts['right']} wrong {counts['wrong']} "
                     f"unknown {counts['unknown']} unwanted {counts['unwanted']} asked {counts['asked']}")
        if self.left_out:
            lines.append(f"  excluded: {some(self.left_out)}: the verdict is no; a yes requires all routers")
        return "".join(f"{line}\n" for line in [*lines, *self.strict, "verdict yes" if self.is_yes else "verdict no"])

    def objects(self):
        words = [option for option in OPTIONS if option in self.options]
        for router in self.left_out:
            words += ["--without", router]
        for it in self.ranges:
            words += ["--ignore", it.text]
        trees = {}
        objects = [domain_object(self.domain, words)]
        for answer in self.shown:
            objects += answer.object(trees)
        objects += [{"unlisted": {"group": dotted(group), "routers": routers, "source": dotted(source)}}
                    for (group, source), routers in self.unlisted]
        objects += [{"unlisted_more": {"rows": self.further}}] if self.further else []
        objects += self.asked.objects()
        objects += [{"without": self.left_out}] if self.left_out else []
        return objects + [{"summary": self.counts}, {"verdict": "yes" if self.is_yes else "no"}]

    def output(self):
        if "--json" not in self.options:
            return self.text()
        return "".join(json.dumps(line, sort_keys=True, separators=(",", ":")) + "\n" for line in self.objects())


def audit(words):
    """The answer for these words of the command `audit`."""
    words, folder, options = list(words), None, set()
    repeated = {"--without": set(), "--ignore": set()}
    while words:
        word = words.pop(0)
        option, sign, value = word.partition("=")
        if option in repeated:
            repeated[option].add(value if sign else words.pop(0))
        elif word.startswith("-"):
            options.add(word)
        else:
            folder = word
    return Audit(folder or ".", options, repeated["--without"], repeated["--ignore"])


def main():
    answer = audit(sys.argv[1:])
    sys.stdout.write(answer.output())
    sys.exit(answer.status)


if __name__ == "__main__":
    main()
