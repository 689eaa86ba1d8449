"""What of one router's own settings contradicts its tables, of each flow that it forwards: judged of its facts."""
import functools

from mcaudit_tools.common import clean
from mcaudit_tools.facts import EARLIER
from mcaudit_tools.premises import links, netfilter, reverse, tables
from mcaudit_tools.premises.findings import (BESIDE, DROPS, LINKS, MAY_DROP, NETFILTER, NOT_KNOWN, REVERSE, ROUTER,
                                             SIZES, TABLES, Finding)
from mcaudit_tools.premises.read import read_facts
from mcaudit_tools.premises.rows import vifs_of
from mcaudit_tools.premises.rules import Packet

DAEMONS = {"frr_igmp": "igmp", "frr_neighbors": "neighbors"}  # sections, and what they tell of
LEAST_SIZE, MOST_SIZE = 20, 65535  # bytes of a packet
cleaned = functools.lru_cache(4096)(clean)  # the same is found of many flows


class RouterJudge:
    """One router, its tables and its facts, and what is found of it."""

    def __init__(self, judge, router, facts):
        """Takes the router's name and its facts."""
        self.judge, self.router, self.facts, self.found = judge, router, facts, []
        self.age_fault = judge.age_fault(router)
        self.vifs = vifs_of(judge.lines(f"vif-{router}"))
        self.rows = judge.wanted.rows(judge.lines(f"cache-{router}"), facts.order)
        earlier, _ = read_facts(judge.folder, EARLIER + router)
        self.earlier = judge.wanted.rows(earlier.sections.get("ip_mr_cache", ()) if earlier else (), facts.order)
        self.filters, self.tables = netfilter.Filters(facts), tables.Tables(facts)
        self.known = {}  # what was found of devices, by what they were looked at for

    @functools.cached_property
    def bridges(self):
        """The router's own bridges."""
        return links.Bridges(self.facts)

    def add(self, kind, findings, flow=None):
        """Adds what was found of one kind, each a word, a text and a remedy, which has to be one as it is shown."""
        for word, text, remedy in findings:
            word = MAY_DROP if word == DROPS and self.age_fault else word
            remedy = remedy if cleaned(remedy) == remedy else ""
            self.found.append(Finding(word, kind, self.router, cleaned(text), remedy, flow))

    def judge_all(self):
        """Judges the router. Returns what was found."""
        for fault in filter(None, (self.facts.failed(), self.age_fault)):
            self.add(ROUTER, [(NOT_KNOWN, f"facts: {fault}", "")])
        self.add(TABLES, self.tables.judge_tables())
        for flow in self.judge.domain.flows:
            row, tree = self.rows.get(flow), self.judge.domain.trees.get(flow)
            if row is not None and row.vif in self.vifs:
                self.judge_flow(flow, row, tree)
            elif tree is not None and self.router in tree.ranks:
                self.add(ROUTER, [(NOT_KNOWN, "facts: their byte order is not that of the tables", "")], flow)
        self.add(NETFILTER, self.filters.faults_found())
        self.add("igmp", self.judge_igmp())
        for reason, kinds in self.unanswered().items():
            kind = kinds[0] if len(kinds) == 1 else "FRR"
            self.add(kind, [(NOT_KNOWN, f"what its FRR says about {' and '.join(kinds)}: {reason}", "")])
        return self.found

    def unanswered(self):
        """Returns what FRR was asked and didn't answer, by the reason: where no daemon runs that is one for all."""
        found = {}
        for name, kind in DAEMONS.items():
            if self.facts.is_asked(name) and not isinstance(self.facts.json(name), dict):
                found.setdefault(self.facts.fault(name) or "it is not such JSON", []).append(kind)
        return found

    def add_known(self, kind, key, judge, flow=None):
        """Adds what was found of one kind, which is judged once for each key."""
        if key not in self.known:
            self.known[key] = list(judge())
        self.add(kind, self.known[key], flow)

    def judge_device(self, flow, vif, side, size):
        """Judges the device of a vif, for one of its sides, and for packets of this size."""
        facts, device = self.facts, vif.device
        self.add_known(LINKS, (device, side), lambda: links.judge_link(facts, vif, side), flow)
        self.add_known(LINKS, (device, side, "queues"), lambda: links.judge_queues(facts, device, side))
        self.add_known(SIZES, (device, side, size), lambda: links.judge_size(facts, device, side, size), flow)
        if facts.link(device, "bridge/multicast_snooping") == "1":
            self.add("snooping", self.bridges.judge_snooping(device, side, flow[1]), flow)

    def judge_flow(self, flow, row, tree):
        """Judges the router's row of a flow; of one that is right, what lies on its tree."""
        if tree is not None and self.router not in tree.ranks:
            return
        vif, size = self.vifs[row.vif], self.size_of(flow, row)
        packet = Packet(*flow, self.judge.numbers[flow], vif.device)
        if not vif.is_register:
            self.judge_device(flow, vif, links.INCOMING, size)
            self.add_known(REVERSE, (vif.device, flow[0]), lambda: reverse.judge_reverse(
                self.facts, flow[0], vif.device, lambda: self.judge.gateway(self.router, row.vif, tree)), flow)
        self.add_known(TABLES, (vif.device, TABLES), lambda: self.tables.judge_rules(vif.device), flow)
        self.add(NETFILTER, self.filters.judge_incoming(packet), flow)
        for number in row.outgoing:
            out = self.vifs.get(number)
            if out is not None and not out.is_register and (tree is None or (self.router, number) in tree.sending):
                self.judge_device(flow, out, links.OUTGOING, size)
                packet = packet._replace(outgoing=out.device)
                self.add(NETFILTER, self.filters.judge_outgoing(packet), flow)

    def size_of(self, flow, row):
        """Returns how many bytes the flow's packets have: between two readings where there are two, else since the row
        is there; None where none came, or its counters can't be such."""
        before = self.earlier.get(flow)
        is_risen = before is not None and before.packets < row.packets and before.octets <= row.octets
        packets = row.packets - before.packets if is_risen else row.packets
        octets = row.octets - before.octets if is_risen else row.octets
        size = -(-octets // packets) if packets > 0 else 0
        return size if LEAST_SIZE <= size <= MOST_SIZE else None

    def judge_igmp(self):
        """Yields the interfaces that FRR asks no hosts on, where no other listed router lies on their LAN."""
        known = self.facts.json("frr_igmp")
        for number, vif in sorted(self.vifs.items()) if isinstance(known, dict) else ():
            lan = self.judge.domain.lan_of.get((self.router, number))
            it = known.get(vif.device)
            if lan is not None and self.judge.domain.lan_counts[lan] == 1 and (
                    not isinstance(it, dict) or it.get("mtraceOnly") is True):
                yield BESIDE, f"{vif.device} has no ip igmp: hosts there, if any, get nothing", ""
