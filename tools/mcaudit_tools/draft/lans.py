"""LANs: the networks that vifs have addresses in, and why an interface isn't sure of its own."""
import itertools
import re

from mcaudit_tools.addresses import Link
from mcaudit_tools.common import clean

LEAST_PREFIX = 8  # of a network that can be a LAN
MOST_NETWORKS = 16  # on one interface
REGISTER, TUNNEL = 4, 1  # flags of a vif
LOOPBACK = "lo"
OF_REGISTER, OF_LOOPBACK = HARMLESS = "a register vif is on no LAN", "a loopback is on no LAN"  # no question to anybody


def place_of(network):
    """Returns by what networks are put in order: networks by their addresses, and then links by their ends."""
    return (1, *network) if isinstance(network, Link) else (0, network.network_address, network.prefixlen)


def fault_of_device(device, flags, addresses):
    """Returns why the device of a vif can't be placed by what its router says, or None."""
    if flags & REGISTER:
        return OF_REGISTER
    if flags & TUNNEL:
        return "a tunnel is on no LAN"
    if not 1 <= len(device.encode()) <= 15 or device == "none" or re.search("[\ufffd\t-\r /:]", device):
        return "its name is none that a topology can have"
    networks = [it.network for it in addresses if it.network is not None]
    if device == LOOPBACK and not networks:
        return OF_LOOPBACK
    if not addresses:
        return "unnumbered: it has no IPv4 address"
    if not networks:
        return f"unnumbered: {addresses[0].local} is a lone address"
    for network in networks:
        if not isinstance(network, Link) and network.prefixlen < LEAST_PREFIX:
            return f"{network} is not a network of a LAN"
        if not isinstance(network, Link) and network.is_link_local:
            return f"{network} can be any link"
    return None


def find_bridges(interfaces):
    """Returns why interfaces in several networks aren't sure: other routers have the networks apart. One router's
    word doesn't make one LAN of others' two."""
    members, doubts = {}, {}
    for key, networks in interfaces.items():
        for it in networks:
            members.setdefault(it, set()).add(key)
    for key, networks in interfaces.items():
        if len(networks) > MOST_NETWORKS:
            doubts[key] = f"it has more than {MOST_NETWORKS} networks"
            continue
        others = {network: {it for it in members[network] if it[0] != key[0]} for network in networks}
        for one, two in itertools.combinations(networks, 2):
            if others[one] - others[two] and others[two] - others[one]:
                doubts[key] = f"it has the networks of two LANs, {one} and {two}"
    return doubts


def join_networks(interfaces, apart):
    """Returns for each network the set of networks that lie on one wire with it, since some device is in both; but
    for those devices that have the networks of LANs apart."""
    joined = {it: {it} for key in apart for it in interfaces[key]}
    for networks in (it for key, it in interfaces.items() if key not in apart):
        whole = set(networks).union(*(joined[it] for it in networks if it in joined))
        joined.update(dict.fromkeys(whole, whole))
    return joined


def overlapping(networks):
    """Returns for each network one that it overlaps, by going through them in order."""
    found, widest = {}, None
    for network in sorted((it for it in networks if not isinstance(it, Link)), key=place_of):
        if widest is not None and network.subnet_of(widest):
            found[network] = widest
            found.setdefault(widest, network)
        else:
            widest = network
    return found


def doubts_of(interfaces, joined, addresses):
    """Returns why interfaces that have a network still aren't sure, by router and device."""
    doubts, members, holders = {}, {}, {}
    overlaps = overlapping(joined)
    for key, networks in interfaces.items():
        members.setdefault(id(joined[networks[0]]), []).append(key)
        for it in addresses[key]:
            if it.local is not None:
                holders.setdefault(it.local, []).append(key)
        for it in networks:
            if it in overlaps:
                doubts[key] = f"{it} and {overlaps[it]} overlap"
    for keys in members.values():
        whole = joined[interfaces[keys[0]][0]]
        for key in keys:
            others = [it[1] for it in keys if it[0] == key[0]]
            if len(others) > 1:
                doubts[key] = f"the router has this network twice, on {clean(', '.join(others))}"
        if len(keys) == 1 and all(isinstance(it, Link) or it.prefixlen >= 30 for it in whole):
            doubts[keys[0]] = f"a link without a peer: no router has the other end of {min(whole, key=place_of)}"
    for local, keys in holders.items():
        if len(keys) > 1:
            doubts.update({key: f"{local} is an address of more than one interface" for key in keys})
    return doubts


def place_vifs(draft):
    """Places each vif's device on the LAN of its network, or says why it isn't sure."""
    interfaces, addresses = {}, {}
    for router in draft.routers:
        for device, flags in router.vifs.values():
            key, found = (router.name, device), router.addresses.get(device, [])
            fault = fault_of_device(device, flags, found)
            if fault:
                draft.unsure.append((*key, fault, "?"))
            else:
                addresses[key], interfaces[key] = found, [it.network for it in found if it.network is not None]
        for device in sorted(set(router.addresses) - {it[0] for it in router.vifs.values()}):
            networks = ", ".join(str(it.network or it.local) for it in router.addresses[device])
            draft.remarks.append(f"{router.name} {clean(device)}, {networks}: it has no vif, so no multicast")
    apart = find_bridges(interfaces)
    joined = join_networks(interfaces, apart)
    doubts = {**doubts_of(interfaces, joined, addresses), **apart}
    for key, networks in interfaces.items():
        whole = joined[networks[0]]
        name = str(min(whole, key=place_of)).replace(" to ", "-").replace("/", "-")
        if key in doubts:
            draft.unsure.append((*key, doubts[key], name))
        else:
            draft.lans.setdefault(name, []).append(key)
            draft.networks[name] = whole
