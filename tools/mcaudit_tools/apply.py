"""How each change is made on a copy, and what a domain has to have for it: else it is refused with the reason."""
import os

from mcaudit_tools import igmp
from mcaudit_tools.common import Refused
from mcaudit_tools.rewrite import CLOSED, Entry, ReportList


def router_of(copy, change):
    """Returns the router whose change it is."""
    if change.who in copy.first.orders:
        return change.who
    if change.who in copy.first.lans:
        raise Refused(f"{change.who} is a LAN: it can `join`, `leave` and be `down`")
    raise Refused(f"the topology has no router {change.who}")


def lan_of(copy, change):
    """Returns the LAN whose change it is."""
    if change.who in copy.first.lans:
        return change.who
    is_router = change.who in copy.first.orders
    raise Refused(f"{change.who} is a router: a LAN can `{change.verb}`" if is_router and change.verb != "down" else
                  f"the topology has no LAN {change.who}")


def entries_of(copy, router):
    """Returns the cache of a router, in which entries are found only by the right byte order."""
    cache = copy.cache(router)
    odd = cache.odd_group()
    if odd is not None:
        raise Refused(f"{router} has a row of {odd.decode()}, which is not a group in the byte order {cache.order}: "
                      "the order that the topology gives it is wrong, or the table is")
    return cache


def vif_of(copy, router, device):
    """Returns the number of the vif that has the device."""
    vifs = copy.vifs(router)
    number = vifs.number_of(os.fsencode(device))
    if number is None:
        names = " ".join(vifs.name_of(it) for it in vifs.vifs)
        raise Refused(f"{router} has no vif of {device}: it has {names or 'none at all'}")
    return number


def entry_of(copy, router, change):
    """Returns the entry that a change is of."""
    cache = entries_of(copy, router)
    entry = cache.entry(change.source, change.group)
    if entry is None:
        is_waiting = cache.is_unresolved(change.source, change.group)
        raise Refused(f"{router} has no entry for this source and group{', but an unresolved one' * is_waiting}")
    return entry


def check_incoming(copy, router, entry, change):
    """Fails unless the entry comes in by the device of the change."""
    if entry.vif != vif_of(copy, router, change.device):
        turn = f"; to turn it around first `{router}: delete {change.source} {change.group}`"
        raise Refused(f"the entry of {router} is {copy.vifs(router).words_of(entry)}, and not from {change.device}"
                      + turn * (change.verb == "add"))


def add(copy, change):
    """Makes an entry, or adds outgoing devices to it. Without such devices an entry that has none stays as it is:
    smcroute gets a rule for it."""
    router = router_of(copy, change)
    entry = entries_of(copy, router).entry(change.source, change.group)
    start = vif_of(copy, router, change.device)
    vifs = {vif_of(copy, router, it): it for it in change.outgoing}
    if entry is not None:
        check_incoming(copy, router, entry, change)
        there = " ".join(name for vif, name in vifs.items() if vif in entry.outgoing)
        if there or entry.outgoing and not vifs:
            raise Refused(f"the entry of {router} is there, and has {there} already" if there else
                          f"the entry of {router} is there already: {copy.vifs(router).words_of(entry)}")
    added = {it: change.number or copy.threshold(router, it) for it in vifs}
    closed = " ".join(name for vif, name in vifs.items() if added[vif] >= CLOSED)
    if closed:
        raise Refused(f"{closed} has the threshold {CLOSED}, by which nothing is forwarded")
    copy.put(router, change.source, change.group, Entry(start, {**(entry.outgoing if entry else {}), **added}))


def remove(copy, change):
    """Takes outgoing devices out of an entry, or the whole entry."""
    router = router_of(copy, change)
    entry = entry_of(copy, router, change)
    check_incoming(copy, router, entry, change)
    vifs = {vif_of(copy, router, it): it for it in change.outgoing}
    absent = " ".join(name for vif, name in vifs.items() if vif not in entry.outgoing)
    if absent:
        raise Refused(f"the entry of {router} has no outgoing {absent}: it is {copy.vifs(router).words_of(entry)}")
    rest = Entry(entry.vif, {vif: it for vif, it in entry.outgoing.items() if vif not in vifs})
    copy.put(router, change.source, change.group, rest if vifs else None)


def delete(copy, change):
    """Takes an entry out."""
    router = router_of(copy, change)
    entry_of(copy, router, change)
    copy.put(router, change.source, change.group, None)


def threshold(copy, change):
    """Sets the threshold of a vif, in one entry or in all."""
    router = router_of(copy, change)
    vif = vif_of(copy, router, change.device)
    if change.source is None:
        entries_of(copy, router).set_threshold(vif, change.number)
        copy.changing(f"cache-{router}")
        return
    entry = entry_of(copy, router, change)
    if vif not in entry.outgoing:
        raise Refused(f"the entry of {router} has no outgoing {change.device}: it is "
                      f"{copy.vifs(router).words_of(entry)}")
    copy.put(router, change.source, change.group, Entry(entry.vif, {**entry.outgoing, vif: change.number}))


def down(copy, change):
    """Takes a router, an interface, or all interfaces on a LAN out of service."""
    is_router, is_lan = change.who in copy.first.orders, change.who in copy.first.lans
    if change.kind is None and is_router and is_lan:
        raise Refused(f"a router and a LAN are called {change.who}: say `router {change.who}: down` or `lan "
                      f"{change.who}: down`")
    if change.kind is None and not is_router and not is_lan:
        raise Refused(f"the topology has neither a router nor a LAN {change.who}")
    if change.kind == "lan" or change.kind is None and is_lan:
        for router, vif in copy.first.vifs_on(lan_of(copy, change)):
            if vif in copy.vifs(router).vifs:  # it may be down by another change
                interface_down(copy, router, vif)
        return
    router = router_of(copy, change)
    if change.device is not None:
        interface_down(copy, router, vif_of(copy, router, change.device))
        return
    for table in (copy.vifs(router), copy.cache(router)):
        table.clear()
    copy.changing(f"vif-{router}")
    copy.changing(f"cache-{router}")


def interface_down(copy, router, vif):
    """Has nothing pass by a vif. The kernel keeps its line and the rows, but sends nothing by it and takes nothing in:
    so a table says it that has neither."""
    copy.vifs(router).drop(vif)
    copy.cache(router).change_outgoing(vif, lambda outgoing: outgoing.pop(vif))
    copy.changing(f"vif-{router}")
    copy.changing(f"cache-{router}")


def join_or_leave(copy, change):
    """Has a host of a LAN want a group, or no host want it any more."""
    lan = lan_of(copy, change)
    reports = copy.file(f"igmp-{lan}", ReportList)
    ends = igmp.group_of(change.group), change.source and igmp.host_of(change.source)
    if change.verb == "join":
        reports.join(*ends)
    else:
        reports.leave(*ends)
    copy.changing(f"igmp-{lan}")


def flow(copy, change):
    """Changes the time to live of a flow in the topology, or adds a flow."""
    pairs = [it[:2] for it in copy.flows]
    # (its expressions take long to be compiled, and most changes are of entries)
    from mcaudit_tools.flows import FlowText  # pylint: disable=import-outside-toplevel
    pair, text = (change.source, change.group), copy.file("topology", FlowText)
    if change.verb == "new":
        if pair in pairs:
            raise Refused("the topology lists this flow already")
        if change.source not in copy.first.sources:
            raise Refused(f"the topology has no source {change.source}")
        text.add(*pair, change.number)
        copy.flows.append((*pair, change.number))
    else:
        if pair not in pairs:
            raise Refused("the topology lists no such flow")
        number = pairs.index(pair)
        text.set_ttl(number + 1, len(pairs), change.number)
        copy.flows[number] = (*pair, change.number)
    copy.changing("topology")


APPLIERS = {"add": add, "remove": remove, "delete": delete, "threshold": threshold, "down": down, "join": join_or_leave,
            "leave": join_or_leave, "ttl": flow, "new": flow}
