"""The rules of netfilter, of nftables or of iptables' older tables in the same form: which ends a packet can have.

Each condition is true or false of the packet, or can't be told (None): ports, limits, marks. So a chain has a set of
ends; where all of them are a drop the packet is dropped, where one is it may be. A packet of a multicast flow is `new`
for conntrack for ever.
"""
import bisect
import heapq
import ipaddress
import re
import typing

MOST_STEPS = 1_000_000  # comparisons that a router's rules may take
MOST_JUMPS = 16
ACCEPT, DROP, NEXT, RETURN = "accept", "drop", "continue", "return"
VERDICTS = {"accept": ACCEPT, "drop": DROP, "reject": DROP, "return": RETURN, "continue": NEXT}
EITHER = "queue", "fwd", "dnat", "snat", "redirect", "tproxy", "masquerade", "synproxy"
JUMPS = "jump", "goto"
WITHOUT_END = "counter", "log", "comment", "mangle", "meter"
ADDRESS = re.compile(r"\d{1,3}(?:\.\d{1,3}){3}")
NUMBERS = {17: "udp", 6: "tcp", 1: "icmp", 2: "igmp"}


class TooMuch(Exception):
    """The rules take too many steps."""


class Packet(typing.NamedTuple):
    """What is known of a flow's packets at one place of a router."""

    source: str
    group: str
    numbers: tuple  # the two addresses
    incoming: str
    outgoing: "str | None" = None


class Chain(typing.NamedTuple):
    """A chain that the kernel begins: its place, and what it does with what gets to its end."""

    key: tuple  # family, table and name
    hook: str
    priority: int
    policy: str
    devices: "list | None"  # None where they aren't known


class Elements:
    """The elements of a named set or map."""

    def __init__(self, elements):
        """Takes them: those that are one word each are found at once."""
        self.words = frozenset(it for it in elements if isinstance(it, str) and not it.startswith("@")
                               and not it.endswith("*"))
        self.others = [it for it in elements if not isinstance(it, str) or it not in self.words]


class Rules:
    """The rules of a chain in their order. Those that are of one source or group alone are found by it, since there may
    be one for each flow."""

    def __init__(self):
        """Begins with none."""
        self.all, self.others, self.known = [], [], {}

    def add(self, rule):
        """Takes the next rule."""
        number = len(self.all)
        self.all.append(rule)
        for kind, it in map(single, rule):
            field = address_field(it) if kind == "match" else None
            if field and ADDRESS.fullmatch(str(it.get("right"))):
                self.known.setdefault((field, it["right"]), []).append(number)
                return
        self.others.append(number)

    def of(self, packet):
        """Yields the rules that may be true of a packet."""
        for number in heapq.merge(self.others, self.known.get(("saddr", packet.source), ()),
                                  self.known.get(("daddr", packet.group), ())):
            yield self.all[number]


class Ruleset:
    """The rules of a router, as `nft -j list ruleset` has them."""

    def __init__(self, items, kind, devices=None):
        """Takes the objects, what they are called, and the devices of chains by table and name."""
        self.kind, self.chains, self.begun, self.sets, self.steps = kind, {}, [], {}, MOST_STEPS
        self.is_tracked, self.bounds = True, bounds_of(items)
        for item in items:
            for name, it in item.items():
                if name == "chain":
                    self.add_chain(it, devices or {})
                elif name in ("set", "map"):
                    self.sets[it["family"], it["table"], it["name"]] = Elements(it.get("elem", []))
                elif name == "rule":
                    self.chains.setdefault((it["family"], it["table"], it["chain"]), Rules()).add(it["expr"])
                    self.is_tracked = self.is_tracked and not any("notrack" in part for part in it["expr"])
        self.begun.sort(key=lambda it: it.priority)

    def add_chain(self, it, devices):
        """Takes a chain."""
        key = it["family"], it["table"], it["name"]
        self.chains.setdefault(key, Rules())
        if "hook" in it:
            device = it.get("dev", devices.get(key[1:]))
            priority = it.get("prio", 0)
            self.begun.append(Chain(key, it["hook"], priority if isinstance(priority, int) else 0,
                                    it.get("policy", ACCEPT), [device] if isinstance(device, str) else device))

    def kind_of(self, address):
        """Returns the same number for all addresses, given as numbers, that no rule tells from each other."""
        return bisect.bisect_right(self.bounds, address)

    def step(self):
        """Counts a comparison."""
        self.steps -= 1
        if self.steps < 0:
            raise TooMuch

    # One condition

    def value_of(self, left, packet):
        """Returns what the packet has in the place that a condition looks at, or None."""
        kind, it = single(left)
        if kind == "payload":
            known = {("ip", "saddr"): packet.source, ("ip", "daddr"): packet.group, ("ip", "protocol"): "udp"}
            return known.get((it.get("protocol"), it.get("field")))
        if kind == "meta":
            return {"iifname": packet.incoming, "oifname": packet.outgoing, "iif": packet.incoming,
                    "oif": packet.outgoing, "l4proto": "udp", "nfproto": "ipv4", "protocol": "ip",
                    "pkttype": "multicast"}.get(it.get("key"))
        if kind == "ct" and it.get("key") == "state":
            return "new" if self.is_tracked else None
        if kind == "fib" and it.get("result") == "type":
            return "multicast"
        return None

    def is_same(self, value, right, key, depth=0):
        """Whether the value is one of those on the right side of a condition; None where that can't be told."""
        self.step()
        if depth > MOST_JUMPS:
            return None
        if isinstance(right, str) and right.startswith("@"):
            known = self.sets.get((*key[:2], right[1:]), Elements([]))
            if value in known.words:
                return True
            right = known.others
        if isinstance(right, list):
            found = [self.is_same(value, it[0] if isinstance(it, list) else it, key, depth + 1) for it in right]
            return True if True in found else None if None in found else False
        kind, it = single(right)
        if kind == "set":
            return self.is_same(value, it, key, depth + 1)
        if kind == "elem":
            return self.is_same(value, it["val"], key, depth + 1)
        if kind == "prefix":
            return is_within(value, f"{it['addr']}/{it['len']}")
        if kind == "range":
            return is_between(value, *it)
        if isinstance(right, int) and right in NUMBERS:
            right = NUMBERS[right]
        if not isinstance(right, str):
            return None
        return value.startswith(right[:-1]) if right.endswith("*") else value == right

    def holds(self, match, packet, key):
        """Whether a condition is true of the packet; None where that can't be told."""
        value = self.value_of(match["left"], packet)
        if value is None or match["op"] not in ("==", "!=", "in"):
            return None
        found = self.is_same(value, match["right"], key)
        return not found if match["op"] == "!=" and found is not None else found

    # One chain

    def ends_of_rule(self, rule, packet, key, depth):
        """Returns the ends that a rule has for the packet, and whether it certainly has one of them."""
        is_sure, ends = True, None
        for part in rule:
            kind, it = single(part)
            if kind == "match":
                found = self.holds(it, packet, key)
                if found is False:
                    return set(), False
                is_sure = is_sure and bool(found)
            elif kind in VERDICTS:
                ends = {VERDICTS[kind]}
            elif kind in EITHER:
                ends = {ACCEPT, DROP}
            elif kind in JUMPS:
                ends = self.ends_of_jump(kind, it["target"], packet, key, depth)
            elif kind == "vmap":
                ends = self.ends_of_map(it, packet, key, depth)
            elif kind not in WITHOUT_END:
                is_sure = False
        return ends or set(), is_sure and ends is not None

    def ends_of_jump(self, kind, target, packet, key, depth):
        """Returns the ends that another chain has for the packet."""
        if depth > MOST_JUMPS:
            return {ACCEPT, DROP}
        ends = self.ends(key[:2] + (target,), packet, depth + 1)
        back = {NEXT if kind == "jump" else RETURN} if ends & {NEXT, RETURN} else set()
        return ends - {NEXT, RETURN} | back

    def ends_of_map(self, vmap, packet, key, depth):
        """Returns the ends that a map of verdicts has for the packet."""
        value, ends = self.value_of(vmap["key"], packet), set()
        data = vmap["data"]
        pairs = self.sets[(*key[:2], data[1:])].others if isinstance(data, str) else data["set"]
        for left, verdict in pairs:
            found = None if value is None else self.is_same(value, left, key)
            if found is not False:
                ends |= self.ends_of_rule([verdict], packet, key, depth)[0]
            if found:
                return ends
        return ends | {NEXT}

    def ends(self, key, packet, depth=0):
        """Returns the ends that a chain has for the packet."""
        ends = set()
        for rule in self.chains[key].of(packet) if key in self.chains else ():
            self.step()
            found, is_sure = self.ends_of_rule(rule, packet, key, depth)
            ends |= found - {NEXT}
            if is_sure and NEXT not in found:
                return ends
        return ends | {NEXT}

    def judge(self, hook, families, packet, device=None):
        """Yields each chain of the hook that may drop the packet, and whether it certainly does. Chains of devices
        are looked at where they may be of this one."""
        for chain in self.begun:
            if chain.hook != hook or chain.key[0] not in families:
                continue
            is_of_device = hook in ("ingress", "egress")
            if is_of_device and chain.devices is not None and device not in chain.devices:
                continue
            ends = {chain.policy if it in (NEXT, RETURN) else it for it in self.ends(chain.key, packet)}
            if DROP in ends:
                yield chain, ends == {DROP} and not (is_of_device and chain.devices is None)


def address_field(match):
    """Returns which address a condition has to be equal to one, saddr or daddr; None of another condition."""
    kind, it = single(match.get("left"))
    is_address = kind == "payload" and match.get("op") == "==" and it.get("protocol") == "ip"
    return it.get("field") if is_address and it.get("field") in ("saddr", "daddr") else None


def bounds_of(items):
    """Returns the addresses at which a condition begins or ceases to hold, as numbers in their order."""
    found, rest = set(), [items]
    while rest:
        it = rest.pop()
        if isinstance(it, str) and ADDRESS.fullmatch(it):
            found |= ends_of(it, 32)
        elif isinstance(it, dict):
            if "addr" in it and "len" in it:
                found |= ends_of(it["addr"], it["len"])
            rest += it.values()
        elif isinstance(it, list):
            rest += it
    return sorted(found)


def ends_of(address, length):
    """Returns the first address of a network and the one behind its last, as numbers; nothing where it is none."""
    try:
        network = ipaddress.IPv4Network(f"{address}/{length}", strict=False)
    except ValueError:
        return set()
    return {int(network.network_address), int(network.broadcast_address) + 1}


def single(it):
    """Returns the key and the value of an object with one key; nothing of all else."""
    return next(iter(it.items())) if isinstance(it, dict) and len(it) == 1 else (None, None)


def is_within(value, prefix):
    """Whether an address is within a prefix; None where one of the two is none."""
    try:
        return ipaddress.IPv4Address(value) in ipaddress.IPv4Network(prefix, strict=False)
    except ValueError:
        return None


def is_between(value, least, most):
    """Whether an address lies between two others; None where one of them is none."""
    try:
        return ipaddress.IPv4Address(least) <= ipaddress.IPv4Address(value) <= ipaddress.IPv4Address(most)
    except (ValueError, TypeError):
        return None
