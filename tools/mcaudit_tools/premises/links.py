"""The devices of a router's vifs: whether they are there and up, ports of something else, and large enough."""
import shlex

from mcaudit_tools.premises.findings import BESIDE, DROPS, MAY_DROP, NOT_KNOWN, some

UP = 1  # in the flags of a device
INCOMING, OUTGOING = "in", "out"
QUEUES = {INCOMING: ("ingress", "clsact"), OUTGOING: ("clsact", "netem")}  # that filter or lose packets


def judge_link(facts, vif, side):
    """Yields what is wrong with the device of a vif: a word, a text and a remedy. The side says whether packets come in
    or go out there."""
    device, name = vif.device, f"{vif.device} ({side})"
    index, flags = facts.number(f"/sys/class/net/{device}/ifindex"), facts.number(f"/sys/class/net/{device}/flags", 16)
    if f"/sys/class/net/{device}" in facts.values:
        yield DROPS, f"{name} is gone", ""
        return
    if index is None or flags is None:
        yield NOT_KNOWN, f"whether {name} is up", ""
        return
    if vif.index not in (None, index):
        yield DROPS, f"{name} was recreated: the vif is of interface {vif.index}, and {device} is {index} now", ""
    if not flags & UP:
        yield DROPS, f"{name} is down", f"ip link set {shlex.quote(device)} up"
    elif facts.link(device, "carrier") != "1":
        word = DROPS if facts.link(device, "carrier") == "0" else NOT_KNOWN
        yield word, f"{name} has no carrier" if word == DROPS else f"whether {name} has a carrier", ""
    if side == INCOMING and facts.setting(device, "mc_forwarding") != 1:
        word = DROPS if facts.setting(device, "mc_forwarding") == 0 else NOT_KNOWN
        yield word, f"mc_forwarding of {device}" + (" is 0" if word == DROPS else ""), ""
    yield from judge_master(facts, device, name, side)


def judge_master(facts, device, name, side):
    """Yields what a device belongs to, which may take its packets."""
    master, kind = facts.link(device, "master"), facts.link(device, "master_kind")
    if facts.link(device, "brport"):
        word = DROPS if side == INCOMING else MAY_DROP
        yield (word, f"{name} is a port of the bridge {master}, whose IP takes its packets in",
               f"ip link set {shlex.quote(device)} nomaster")
    elif master:
        yield BESIDE, f"{name} belongs to {master}" + (f" ({kind})" if kind else ""), ""
    switch = facts.link(device, "phys_switch_id")
    if switch:
        yield BESIDE, f"{name} is a port of switch hardware ({switch}), which may forward by itself", ""


def judge_size(facts, device, side, size):
    """Yields where packets of this size, which may be None, don't fit."""
    mtu = facts.number(f"/sys/class/net/{device}/mtu")
    if mtu is None:
        yield NOT_KNOWN, f"the MTU of {device} ({side})", ""
    elif size is None:
        yield NOT_KNOWN, "the size of its packets, since none were counted", ""
    elif size > mtu:
        after = ("dropped" if side == INCOMING else
                 "dropped where they have DF, which Linux sets (IpFragFails), else cut in pieces")
        yield (MAY_DROP, f"its packets have {size} bytes on the average, and {device} ({side}) has an MTU of {mtu}: "
               f"{after}", f"ip link set {shlex.quote(device)} mtu {size}")


class Bridges:
    """Which groups the router's own bridges know, and the ports that they take for routers'."""

    def __init__(self, facts):
        """Takes the router's facts."""
        self.facts, known = facts, facts.json("mdb")
        self.is_known, self.ports, self.routers = isinstance(known, list), {}, {}
        for one in [it for it in known if isinstance(it, dict)] if self.is_known else ():
            for it in one.get("mdb", ()):
                if isinstance(it, dict):
                    self.ports.setdefault((it.get("dev"), it.get("grp")), set()).add(str(it.get("port")))
            for device, found in one["router"].items() if isinstance(one.get("router"), dict) else ():
                self.routers.setdefault(device, set()).update(str(it.get("port")) for it in found
                                                              if isinstance(it, dict))

    def judge_snooping(self, device, side, group):
        """Yields where a bridge of the router's own decides which of its ports, or whether the router itself, gets the
        group."""
        name = f"{device} ({side}) is a bridge that snoops"
        if not self.is_known:
            yield NOT_KNOWN, f"{name}, and which groups it knows", ""
            return
        ports = self.ports.get((device, group), set())
        if side == INCOMING:
            if ports and device not in ports and self.facts.link(device, "bridge/multicast_router") != "2":
                yield (MAY_DROP, f"{name} and gives {group} to its ports alone, unless it takes the router itself for "
                       "one", f"ip link set {shlex.quote(device)} type bridge mcast_router 2")
            return
        names = some(sorted(ports - {device})) or "none, unless it floods"
        routers, there = sorted(self.routers.get(device, ())), self.facts.ports(device)
        yield (BESIDE, f"{name}: {group} goes to its ports {names}; router ports {some(routers) or 'none'}; of "
               f"{some(there) or 'none'}", "")


def judge_queues(facts, device, side):
    """Yields the filters and losses that a device has below IP."""
    for line in facts.lines("tc"):
        words = line.split()
        if device not in words or "qdisc" not in words:
            continue
        kind = "".join(words[words.index("qdisc") + 1:][:1])
        if kind in QUEUES[side]:
            yield BESIDE, f"{device} ({side}) has a queueing discipline {kind}, whose filters are not judged", ""
