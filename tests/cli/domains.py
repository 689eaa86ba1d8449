"""The files of small domains, each told in a line.

  chain | 3 | > 1:1; > 1:1 7:1 | 2 | source, second, third

A line is, parted by `|`:

- the topology: a name of TOPOLOGIES, which says of which two LANs each router has an interface;
- the least TTL of the packets of the flow from 10.0.0.5 on l0 to 239.1.2.3, and behind it, where there are more
  flows, that of the one to 239.1.2.4, and so on;
- the routers, parted by `;`: what rows each has, parted by `/`, of which `> 1:1` is the common row (the first flow,
  from vif 0) with these outgoing pairs, and `none` is no row. Before them stands, with `: `, the name of the
  router's vifs (of VIFS) where they aren't eth0 and eth1;
- the numbers of the LANs whose hosts want the first flow, or `none`;
- the certificate's entries, parted by `,`: a LAN's number, its rank, its need, and the number of the router and of
  the vif that send on it, parted by `/`; `source`, `second` and `third` are those of the chain, and `none` is no
  entry. `&` parts those of several flows. Without this part there is no certificate.
"""
import json

# The LANs of the two interfaces of each router; in front of them stand their devices, where they aren't eth0 and eth1.
TOPOLOGIES = {
    "chain": ["0 1", "1 2"],
    # r2 is a big-endian machine
    "big endian": ["0 1", "1 2"],
    # r2 sends back to the source's LAN
    "back": ["0 1", "1 0"],
    "branches": ["0 1", "1 2", "0 3"],
    "two ways": ["0 1", "1 2", "0 2"],
    "ring": ["0 1", "1 2", "2 0"],
    # r3 has two vifs on l1
    "twice": ["0 1", "1 2", "eth1 eth2 1 1"],
    # r3 and r4 beside the chain
    "cycle": ["0 1", "1 2", "3 4", "4 3"],
    "long": ["0 1", "1 2", "2 3"],
}

# Each vif: its number, its device and its flags, of which 1 is a tunnel and 4 a register vif.
VIFS = {
    "": ["0 eth0 0", "1 eth1 0"],
    "register last": ["0 eth0 0", "1 eth1 0", "2 pimreg 4"],
    "register first": ["0 pimreg 4", "1 eth0 0", "2 eth1 0"],
    "tunnel": ["0 eth0 0", "1 eth1 1"],
    "from one": ["1 eth1 0", "2 eth2 0"],
}

ENTRIES = {"source": "0/0/1", "second": "1/1/2/0/1", "third": "2/2/3/1/1"}

VIF_HEADER = "Interface BytesIn PktsIn BytesOut PktsOut Flags Local Remote\n"
CACHE_HEADER = "Group Origin Iif Pkts Bytes Wrong Oifs\n"

# A report that wants all sources of 239.1.2.3.
WANTED = "2200eaf90000000102000000ef010203\n"


def devices_and_lans(interfaces):
    words = interfaces.split()
    devices, lans = (words[:2], words[2:]) if len(words) == 4 else (["eth0", "eth1"], words)
    return list(zip(devices, map(int, lans)))


def topology_of(name, least_ttls):
    """Returns the topology's text, and how many LANs it has."""
    routers = [devices_and_lans(interfaces) for interfaces in TOPOLOGIES[name]]
    lans = 1 + max(lan for interfaces in routers for _, lan in interfaces)
    lines = ["version = 1", f"lans = {json.dumps([f'l{lan}' for lan in range(lans)])}"]
    for number, interfaces in enumerate(routers, 1):
        lines += ["[[router]]", f'name = "r{number}"']
        lines += ['order = "big"'] if name == "big endian" and number == 2 else []
        for device, lan in interfaces:
            lines += ["[[interface]]", f'router = "r{number}"', f'device = "{device}"', f'lan = "l{lan}"']
    lines += ["[[source]]", 'address = "10.0.0.5"', 'lan = "l0"']
    for number, ttl in enumerate(least_ttls.split(), 3):
        lines += ["[[flow]]", 'source = "10.0.0.5"', f'group = "239.1.2.{number}"', f"ttl = {ttl}"]
    return "\n".join(lines) + "\n", lans


def vifs_of(name):
    lines = (vif.split() for vif in VIFS[name])
    return VIF_HEADER + "".join(f"{number} {device} 0 0 0 0 0000{flags} 00000000 00000000\n" for number, device, flags in lines)


def cache_of(rows):
    whole = (row.strip().replace("> ", "030201EF 0500000A 0 0 0 0 ") for row in rows.split("/"))
    return CACHE_HEADER + "".join(f"{row}\n" for row in whole if row != "none")


def entry_of(words):
    lan, rank, need, *forwarder = map(int, ENTRIES.get(words, words).split("/"))
    entry = {"lan": f"l{lan}", "need": need, "rank": rank}
    if forwarder:
        entry.update(router=f"r{forwarder[0] + 1}", vif=forwarder[1])
    return entry


def certificate_of(entries):
    """Returns the certificate of the entries of one flow, or of the trees of several."""
    lists = [[entry_of(words.strip()) for words in flow.split(",") if words.strip() != "none"] for flow in entries.split("&")]
    flows = [{"group": f"239.1.2.{number}", "source": "10.0.0.5"} for number in range(3, 3 + len(lists))]
    if len(lists) == 1:
        flows[0]["reached"] = lists[0]
        return json.dumps({"flows": flows, "version": 1})
    for flow, tree in zip(flows, lists):
        flow["tree"] = lists.index(tree)
    return json.dumps({"flows": flows, "trees": lists, "version": 2})


def files_of(line):
    """Returns the text of each file of the domain, by its name."""
    name, ttls, routers, wanting, *entries = (part.strip() for part in line.split("|"))
    topology, lans = topology_of(name, ttls)
    files = {"topology": topology}
    routers = routers.split(";")
    if len(routers) != len(TOPOLOGIES[name]):
        raise ValueError(f"another number of routers: {line}")
    for number, router in enumerate(routers, 1):
        vifs, _, rows = router.strip().rpartition(": ")
        files[f"vif-r{number}"], files[f"cache-r{number}"] = vifs_of(vifs), cache_of(rows)
    wanting = [] if wanting == "none" else wanting.split()
    for lan in range(lans):
        files[f"igmp-l{lan}"] = WANTED if str(lan) in wanting else ""
    if entries:
        files["certificate"] = certificate_of(*entries)
    return files
