"""What the filters of a router do with a flow's packets, on their way from one device to another."""
import re
import shlex

from mcaudit_tools.premises import iptables
from mcaudit_tools.premises.findings import DROPS, MAY_DROP, NOT_KNOWN
from mcaudit_tools.premises.rules import Ruleset, TooMuch
from mcaudit_tools.told import UNREADABLE

TABLE_LINE = re.compile(r"\s*table (\S+) (\S+) \{")
CHAIN_LINE = re.compile(r"\s*chain (\S+) \{")
DEVICES = re.compile(r"hook \S+ devices? (?:= \{([^}]*)\}|(\S+)) priority")
ALL_GROUPS = "224.0.0.0/4"
IP, INGRESS, EGRESS = ("ip", "inet"), ("netdev", "inet"), ("netdev",)
OLD_TABLES = "filter", "raw", "mangle", "nat", "security"


def devices_of(lines):
    """Returns the devices of chains by table and name, as `nft list chains netdev` prints them."""
    table, chain, found = "", "", {}
    for line in lines:
        is_table, is_chain, devices = TABLE_LINE.match(line), CHAIN_LINE.match(line), DEVICES.search(line)
        if is_table:
            table = is_table[2]
        elif is_chain:
            chain = is_chain[1]
        elif devices:
            names = (devices[1] or devices[2]).replace(",", " ").split()
            found[table, chain] = [it.strip('"') for it in names]
    return found


class Filters:
    """The filters of a router."""

    def __init__(self, facts):
        """Takes its facts."""
        self.rulesets, self.faults = [], {}  # the faults are its keys
        self.known = {}  # what is found, by hook, devices, and what the rules tell of the addresses
        if not facts.is_root:
            self.faults["not asked as root"] = None
            return
        self.read_new(facts)
        self.read_old(facts)

    def read_new(self, facts):
        """Takes the rules of nftables."""
        fault = facts.fault("nft")
        if fault == "not loaded":
            return
        if fault is not None:
            self.faults[{"none": "there is no nft", "not known": "whether nftables is loaded"}.get(
                fault, f"nft list ruleset ({fault})")] = None
            return
        value = facts.json("nft")
        try:
            self.rulesets.append(Ruleset(value["nftables"], "nft", devices_of(facts.lines("nft_devices"))))
        except UNREADABLE:
            self.faults["what nft prints can't be read"] = None

    def read_old(self, facts):
        """Takes the older tables of iptables."""
        missing = [it.partition(" ")[2] for it in facts.text("legacy").split("\n") if it.startswith("!table ")]
        if missing:
            self.faults[f"the older table {missing[0][:32]} of iptables is loaded, and nothing there prints it"] = None
        elif facts.fault("legacy") is not None:
            self.faults[f"the older tables of iptables ({facts.fault('legacy')})"] = None
        lines = facts.lines("legacy")
        if lines:
            self.rulesets.append(Ruleset(list(iptables.items_of(lines)), "iptables-legacy"))

    def judge(self, hook, families, packet):
        """Yields what the chains of a hook do with the packet: a word, a text and a remedy."""
        key = (hook, packet.incoming, packet.outgoing,
               *(rules.kind_of(it) for rules in self.rulesets for it in packet.numbers))
        if key not in self.known:
            self.known[key] = self.found_by(hook, families, packet)
        return self.known[key]

    def found_by(self, hook, families, packet):
        """Returns what the chains of a hook do with the packet."""
        device, found = packet.outgoing if hook == "egress" else packet.incoming, []
        for rules in self.rulesets:
            try:
                for chain, is_sure in rules.judge(hook, families, packet, device):
                    found.append((DROPS if is_sure else MAY_DROP, *text_of(rules, chain)))
            except TooMuch:
                self.faults["its rules are too many to be judged"] = None
            except UNREADABLE:
                self.faults["its rules can't be read"] = None
        return found

    def judge_incoming(self, packet):
        """Yields what the filters do with packets as they come in."""
        yield from self.judge("ingress", INGRESS, packet)
        yield from self.judge("prerouting", IP, packet)

    def judge_outgoing(self, packet):
        """Yields what the filters do with packets that are to go out."""
        for hook, families in (("forward", IP), ("postrouting", IP), ("egress", EGRESS)):
            for word, text, remedy in self.judge(hook, families, packet):
                yield word, f"{text}, from {packet.incoming} to {packet.outgoing}", remedy

    def faults_found(self):
        """Yields what isn't known of the filters."""
        for it in self.faults:
            yield NOT_KNOWN, f"netfilter: {it}", ""


def text_of(rules, chain):
    """Returns what a chain is called, and the line that lets multicast through it."""
    family, table, name = chain.key
    is_old = rules.kind != "nft"
    if is_old or family == "ip" and table in OLD_TABLES and name == chain.hook.upper():
        program = rules.kind if is_old else "iptables"
        first = "DOCKER-USER" if (family, table, "DOCKER-USER") in rules.chains and name == "FORWARD" else name
        words = [program, *([] if table == "filter" else ["-t", table]), "-I", first, "-d", ALL_GROUPS, "-j", "ACCEPT"]
        text = f"{program} {table} {name}"
    else:
        words = ["nft", "insert", "rule", family, table, name, "ip", "daddr", ALL_GROUPS, "accept"]
        text = f"nft {family} {table} {name} ({chain.hook})"
    return text, " ".join(map(shlex.quote, words))
