"""The texts of a domain as mcaudit reads them, and what mcaudit has to write of it, as files of a folder:

bundle          without a certificate, for make and replay
certified       with the certificate, for check
files/          the files of the domain, for audit
certificate     what make has to write
verdicts        what check has to write
audited         what audit has to write
travel          what replay has to write of the first flow
facts           in JSON: the number of flows and of bytes, the time to live of the first flow, and for wants the list, a
                group, a source, and the answer
"""
import json
import os
import shutil

from domains import dotted, word

CACHE = "Group    Origin   Iif     Pkts    Bytes    Wrong Oifs\n"
VIFS = "Interface      BytesIn  PktsIn  BytesOut PktsOut Flags Local    Remote\n"
POOL = 64  # different ends of a router's other rows


def topology_of(domain):
    """The topology, in TOML."""
    lans = ", ".join(f'"lan-{lan}"' for lan in range(domain.plan.lans))
    lines = [f"version = 1\nlans = [{lans}]\n"]
    for router in range(len(domain.plan.routers)):
        lines.append(f'\n[[router]]\nname = "router-{router}"\norder = "{domain.order}"\n')
    for router, own in enumerate(domain.plan.routers):
        for vif, lan in enumerate(own):
            lines.append(f'\n[[interface]]\nrouter = "router-{router}"\ndevice = "eth{vif}"\nlan = "lan-{lan}"\n')
    for source, lan in {flow.source: flow.lan for flow in domain.flows}.items():
        lines.append(f'\n[[source]]\naddress = "{dotted(source)}"\nlan = "lan-{lan}"\n')
    for group, source, _, ttl in domain.flows:
        lines.append(f'\n[[flow]]\nsource = "{dotted(source)}"\ngroup = "{dotted(group)}"\nttl = {ttl}\n')
    return "".join(lines)


def vifs_of(domain, router):
    """A table of vifs, padded as ipmr_vif_seq_show of net/ipv4/ipmr.c pads it."""
    lines = [VIFS]
    for vif in range(len(domain.plan.routers[router])):
        counters = f"{domain.rng.randrange(10**9):8d} {domain.rng.randrange(10**6):7d}  {0:8d} {0:7d}"
        local = word(0x0A000001 + 65536 * router + 256 * vif, domain.order)
        lines.append(f"{vif:2d} {'eth' + str(vif):<10s} {counters} {0:05X} {local} {0:08X}\n")
    return "".join(lines)


def end_of_row(rng, incoming, outgoing):
    """What stands behind the addresses of a row, padded as ipmr_mfc_seq_show of net/ipv4/ipmr.c pads it."""
    packets = rng.randrange(10**6)
    pairs = "".join(f" {vif:2d}:{1:<3d}" for vif in outgoing)
    return f"{incoming:<3d} {packets:8d} {packets * 188:8d} {0:8d}{pairs}\n"


def end_of_other_row(domain, router):
    """The same of a row that is not of a flow: in by some vif, and out by some."""
    vifs = len(domain.plan.routers[router])
    count = min(domain.rng.choice(domain.oifs), vifs)
    return end_of_row(domain.rng, domain.rng.randrange(vifs), sorted(domain.rng.sample(range(vifs), count)))


def layout_of(domain, others):
    """The rows of a table in their order: what each begins with, and the tree of its flow, where it is of one."""
    rows = [(flow.group, flow.source, tree) for flow, tree in zip(domain.flows, domain.tree_of)]
    rows += [(group, source, None) for group, source in others]
    (domain.arrange or domain.rng.shuffle)(rows)
    return [(f"{word(group, domain.order)} {word(source, domain.order)} ", tree) for group, source, tree in rows]


def caches_of(domain):
    """The caches of the routers, one after the other."""
    full, listed = layout_of(domain, domain.others), layout_of(domain, [])
    for router in range(len(domain.plan.routers)):
        ends = [end_of_row(domain.rng, *tree.rows[router]) for tree in domain.trees]
        pool = [end_of_other_row(domain, router) for _ in range(POOL)]
        rows = enumerate(full if router < domain.full else listed)
        yield CACHE + "".join(
            begin + (pool[number % POOL] if tree is None else ends[tree]) for number, (begin, tree) in rows
        )


def parts_of(domain):
    """The parts of the domain's bundle without a certificate, in order: kind, owner and text."""
    yield "topology", None, topology_of(domain)
    for router, cache in enumerate(caches_of(domain)):
        yield "vif", f"router-{router}", vifs_of(domain, router)
        yield "cache", f"router-{router}", cache
    for lan, reports in enumerate(domain.reports):
        yield "igmp", f"lan-{lan}", "".join(reports.lines)


def entry_of(lan, need, rank, router, vif):
    """An entry of a certificate, in JSON as make writes it."""
    sender = "" if router is None else f',"router":"router-{router}","vif":{vif}'
    return f'{{"lan":"lan-{lan}","need":{need},"rank":{rank}{sender}}}'


def certificate_of(domain):
    """The certificate of the domain as make writes it, each different tree once, in the order of its first use."""
    numbers = {}
    flows = []
    for (group, source, _, _), tree in zip(domain.flows, domain.tree_of):
        number = numbers.setdefault(domain.trees[tree].entries, len(numbers))
        flows.append(f'{{"group":"{dotted(group)}","source":"{dotted(source)}","tree":{number}}}')
    trees = (f"[{','.join(entry_of(*entry) for entry in entries)}]" for entries in numbers)
    return f'{{"flows":[{",".join(flows)}],"trees":[{",".join(trees)}],"version":2}}\n'


def version_one(certificate):
    """The certificate in version 1, each flow with its own entries."""
    trees = certificate["trees"]
    flows = (
        {"group": flow["group"], "reached": trees[flow["tree"]], "source": flow["source"]}
        for flow in certificate["flows"]
    )
    return {"flows": list(flows), "version": 1}


def turned(value):
    """A value whose objects have their keys the other way round."""
    if isinstance(value, dict):
        return {key: turned(value[key]) for key in reversed(value)}
    return [turned(one) for one in value] if isinstance(value, list) else value


def certificate_in(form, text):
    """The same certificate in this form: `as-written`, `version-one`, `spaced` or `turned`."""
    if form == "as-written":
        return text
    certificate = json.loads(text)
    if form == "spaced":
        return json.dumps(certificate)
    other = version_one(certificate) if form == "version-one" else turned(certificate)
    return json.dumps(other, separators=(",", ":"))


def verdicts_of(domain):
    """What check writes of a domain whose flows are all right."""
    lines = []
    for (group, source, _, ttl), tree in zip(domain.flows, domain.tree_of):
        copies = len(domain.trees[tree].entries)
        lines.append(f"flow {dotted(source)} {dotted(group)} ttl {ttl} yes copies {copies}\n")
    return "".join(lines) + "verdict yes\n"


def some(names):
    """A list of names as audit shows it."""
    return " ".join(names[:8]) + (f" and {len(names) - 8} more" if len(names) > 8 else "")


def wanted_of(domain, flow):
    """The line of the LANs that want a flow."""
    lans = [f"lan-{lan}" for lan, reports in enumerate(domain.reports) if reports.admits(flow.source, flow.group)]
    return f"  wanted {len(lans)}: " + (some(lans) if lans else "no report asks for it") + "\n"


def unlisted_of(domain):
    """The lines of the rows that are of no flow and have a source: each is in the tables of the first routers."""
    pairs = sorted((group, source) for group, source in domain.others if source)
    routers = [f"router-{router}" for router in range(min(domain.full, len(domain.plan.routers)))]
    for group, source in pairs[:20]:
        yield f"unlisted {dotted(source)} {dotted(group)} routers {len(routers)}: {some(routers)}\n"
    if len(pairs) > 20:
        yield f"unlisted and {(len(pairs) - 20) * len(routers)} further rows\n"


def wants_of(domain):
    """What LANs ask for and no flow answers, by group and source, or 0 for any: the LANs, and what they exclude."""
    listed, places, wants = {}, {}, {}
    for flow in domain.flows:
        listed.setdefault(flow.group, {})[flow.source] = True
        places[flow.source] = flow.lan
    for lan, reports in enumerate(domain.reports):
        for group, excluded in reports.excluded.items():
            left = excluded - reports.included.get(group, set())
            if left.issuperset(listed.get(group, ())):
                wants.setdefault((group, 0), {})[lan] = left
        for group in reports.included.keys() - reports.excluded.keys():
            for source in reports.included[group]:
                if source not in listed.get(group, ()) and places.get(source) != lan:
                    wants.setdefault((group, source), {})[lan] = ()
    return wants, listed


def asked_of(domain):
    """The lines of what LANs ask for and no flow answers, and how many wants of LANs these are. Each row that is of no flow
    goes out by some vif, and is in the tables of the first routers."""
    wants, listed = wants_of(domain)
    routers = [f"router-{router}" for router in range(min(domain.full, len(domain.plan.routers)))]
    others = {}
    for group, source in domain.others:
        others.setdefault(group, set()).add(source)
    lines = []
    for (group, source), lans in sorted(wants.items())[:20]:
        rows = others.get(group, set())
        rest = [rows - {0} - set(left) for left in lans.values()] if source == 0 else [rows & {source}]
        what = "forwarded by " if any(rest) else "no entry for it but (*,G) or (*,*) in " if 0 in rows else ""
        told = [what + some(routers) if what else "no router forwards it"]
        told += ["listed for the group: " + some(list(map(dotted, listed[group])))] if group in listed else []
        names = some([f"lan-{lan}" for lan in sorted(lans)])
        want = f"{dotted(source) if source else '*'} {dotted(group)}"
        lines.append(f"asked {want} lans {len(lans)}: {names}: {'; '.join(told)}\n")
    count = sum(map(len, wants.values()))
    more = count - sum(len(lans) for _, lans in sorted(wants.items())[:20])
    return lines + ([f"asked and {more} more\n"] if more else []), count


def audited_of(domain):
    """What audit writes of a domain whose flows are all right."""
    wanted = [wanted_of(domain, flow) for flow in domain.flows]
    *verdicts, last = verdicts_of(domain).splitlines(keepends=True)
    lines = [line for both in zip(verdicts, wanted) for line in both]
    flows, unwanted = len(wanted), sum(line.startswith("  wanted 0:") for line in wanted)
    asked, count = asked_of(domain)
    summary = f"summary flows {flows} right {flows} wrong 0 unknown 0 unwanted {unwanted} asked {count}\n"
    return "".join([*lines, *unlisted_of(domain), *asked, summary, last])


def travel_of(domain):
    """What replay writes of a packet of the first flow, sent with the flow's time to live."""
    flow = domain.flows[0]
    lines = [f"replay {dotted(flow.source)} {dotted(flow.group)} ttl {flow.ttl}\n"]
    for router, vif, ttl, outcome in domain.travel(0, flow.ttl):
        lines.append(f"event router-{router} {vif} ttl {ttl} {outcome}\n")
    return "".join(lines) + "finding Clean\n"


def facts_of(domain):
    """What is asked of the longest report list: about a flow that its LAN does not want, if there is one."""
    lan = max(range(domain.plan.lans), key=lambda lan: sum(map(len, domain.reports[lan].lines)))
    wants = domain.reports[lan].admits
    asked = next((flow for flow in domain.flows if not wants(flow.source, flow.group)), domain.flows[0])
    answer = "wanted\n" if wants(asked.source, asked.group) else "not wanted\n"
    return {
        "flows": len(domain.flows),
        "ttl": domain.flows[0].ttl,
        "list": f"igmp-lan-{lan}",
        "words": [dotted(asked.group), dotted(asked.source)],
        "answer": answer,
    }


def framed(name, text):
    """A part of a bundle."""
    return f"part {name} {len(text)}\n{text}\n"


def write_text(path, text):
    """Writes a file."""
    with open(path, "w", encoding="ascii") as file:
        file.write(text)


def write(domain, folder, form="as-written"):
    """Writes all of these files into a folder; the bundle's certificate in this form."""
    os.mkdir(f"{folder}/files")
    with open(f"{folder}/bundle", "w", encoding="ascii") as bundle:
        bundle.write("mcaudit bundle 1\n")
        for kind, owner, text in parts_of(domain):
            bundle.write(framed(f"{kind}/{owner}" if owner else kind, text))
            write_text(f"{folder}/files/{kind}-{owner}" if owner else f"{folder}/files/{kind}", text)
    shutil.copyfile(f"{folder}/bundle", f"{folder}/certified")
    certificate = certificate_of(domain)
    with open(f"{folder}/certified", "a", encoding="ascii") as certified:
        certified.write(framed("certificate", certificate_in(form, certificate)) + "end\n")
    with open(f"{folder}/bundle", "a", encoding="ascii") as bundle:
        bundle.write("end\n")
    write_text(f"{folder}/certificate", certificate)
    write_text(f"{folder}/verdicts", verdicts_of(domain))
    write_text(f"{folder}/audited", audited_of(domain))
    write_text(f"{folder}/travel", travel_of(domain))
    write_text(f"{folder}/facts", json.dumps(facts_of(domain)))

