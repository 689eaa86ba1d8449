#!/usr/bin/env python3
"""Makes domains of ten shapes from a seed, each right, so that a made certificate gets `verdict yes`.

iptv          40 routers, dual-homed, that bring 500 channels to 768 LANs; half rows of other groups, half reports
market        6 routers, two feeds apart from another, 4,000 flows; hosts that name the sources of each group
campus        256 routers, dual-homed, of which 70 have tables of 60,000 rows, and 64 listed flows among them
reports       3 routers; 10 LANs with long lists of older and newer reports, of many records and sources
chain         4,096 flows through 256 routers in a row
star          4,096 flows to 256 routers on one LAN
certificate   33 routers and 1,024 LANs, and a certificate that is most of the bundle, near its limit
onegroup      one group with 65,536 sources in each table, 4,096 of them listed, and long filters of sources
wild          20 routers whose tables have a row for every source (origin 0.0.0.0) of some 65,000 groups
onecache      one router with 32 vifs and a table of 65,536 long rows, near the limit of a part

Each takes a share of its whole size, and scales what it is large in: rows, flows or reports.

Then come tables whose rows may be unkind to how they are kept, all of 4 routers with 65,536 rows and 4,096 listed
flows: unordered, as a measure for the others; equal beginnings; ascending; descending; one group; one source.

Then the shape `certificate` four times: with the certificate as make writes it, in version 1, with spaces, and with the
keys of its objects turned round.

And last `faulty`, the shape `chain` with the rows beside each source sending to nobody: each of the 4,096 flows misses
LANs, and the search for the first of them goes along some 120 routers.

usage: shapes.py SHAPE SHARE FOLDER      writes the texts of the domain and the answers into the folder (texts.py)
"""
import os
import random
import sys

sys.dont_write_bytecode = True
sys.path.append(os.path.join(os.path.dirname(os.path.abspath(__file__)), "..", "tests", "audited"))
import answers
import texts
from domains import EXCLUDE, INCLUDE, Domain, Flow, Plan, Reports, joins, older_report, report

SEED = 7761
ROWS = 65536  # of a table at the most
GROUPS = range(0xEF000000, 0xF0000000)
HOSTS = range(0x0A000001, 0x0B000000)
OTHER_HOSTS = range(0xAC100001, 0xAC200000)


def other_rows(rng, count):
    """So many groups and sources of rows that are of no listed flow, over few groups and many sources."""
    groups = rng.sample(GROUPS, 1 + count // 50)
    return [(rng.choice(groups), source) for source in rng.sample(OTHER_HOSTS, count)]


def flows_of(rng, count, lans, hosts, ttl=64):
    """So many flows of different groups, from so many hosts on some of these LANs."""
    places = [(source, rng.choice(lans)) for source in rng.sample(HOSTS, hosts)]
    return [Flow(group, *places[n % hosts], ttl) for n, group in enumerate(rng.sample(GROUPS, count))]


def silent(plan, lists):
    """The reports of all LANs, of which those that aren't told have none."""
    return [lists.get(lan) or Reports() for lan in range(plan.lans)]


def subscribed(rng, plan, lans, packages, some):
    """Reports by which each of these LANs joins some of the packages, which are lists of groups, from every source."""
    joined = [joins(package) for package in packages]
    return silent(plan, {lan: Reports(sum(rng.sample(joined, some), [])) for lan in lans})


def packages_of(flows, count):
    """The flows' groups in so many packages."""
    groups = [flow.group for flow in flows]
    return [groups[n::count] for n in range(count)]


def iptv(rng, share):
    """Two routers at the head, 6 in the middle and 32 at the edge, each on two of those above it; each LAN of an edge
    takes some of the channels."""
    plan = Plan(40)
    head = plan.lan(0, 1)
    for middle in range(2, 8):
        plan.lan(0, middle)
        plan.lan(1, middle)
    for edge in range(8, 40):
        plan.lan(2 + edge % 6, edge)
        plan.lan(2 + (edge + 1) % 6, edge)
    lans = [plan.lan(edge) for edge in range(8, 40) for _ in range(24)]
    flows = flows_of(rng, int(500 * share), [head], 50)
    joined = [(older_report(flow.group), report([(EXCLUDE, flow.group, [])])) for flow in flows]
    lists = {}
    for lan in lans:
        channels = [rng.choice(pair) for pair in rng.sample(joined, int(60 * share))]
        lists[lan] = Reports(rng.choices(channels, k=int(1250 * share)))
    return Domain(rng, plan, flows, silent(plan, lists), other_rows(rng, int(8000 * share)))


def market(rng, share):
    """Two feeds, each through its own router, to four routers that are on both, with 12 LANs each; on a LAN, hosts take
    16 of 40 packages of the groups, each group from its own source."""
    plan = Plan(6)
    feeds = [plan.lan(0), plan.lan(1)]
    plan.lan(0, 2, 3, 4, 5)
    plan.lan(1, 2, 3, 4, 5)
    lans = [plan.lan(router) for router in range(2, 6) for _ in range(12)]
    flows = flows_of(rng, int(4000 * share), feeds, 32)
    packages = [report([(INCLUDE, flow.group, [flow.source]) for flow in flows[n::40]]) for n in range(40)]
    lists = {lan: Reports(rng.choices(rng.sample(packages, 16), k=280)) for lan in lans}
    others = other_rows(rng, int(ROWS * share) - len(flows))
    return Domain(rng, plan, flows, silent(plan, lists), others)


def buildings(count):
    """8 routers on a backbone, 62 each on two of these, and 186 for the buildings, each on two of those, with so many
    LANs each. Returns the plan, and these LANs."""
    plan = Plan(256)
    plan.lan(*range(8))
    for middle in range(8, 70):
        plan.lan(middle % 8, middle)
        plan.lan((middle + 1) % 8, middle)
    for edge in range(70, 256):
        plan.lan(8 + edge % 62, edge)
        plan.lan(8 + (edge + 1) % 62, edge)
    return plan, [plan.lan(edge) for edge in range(70, 256) for _ in range(count)]


def campus(rng, share):
    """Buildings with two LANs each, on 256 routers of which the first 70 have large tables. The whole is 248 MB."""
    plan, lans = buildings(2)
    flows = flows_of(rng, 64, lans, 16)
    reports = subscribed(rng, plan, lans, packages_of(flows, 16), 4)
    return Domain(rng, plan, flows, reports, other_rows(rng, int(60000 * share)), full=70)


def listed_reports(rng, groups, hosts, count):
    """Different reports of the hosts of a LAN, one of eight of version 2; every other group is only taken from named
    sources."""
    reports = []
    for number in range(count):
        if number % 8 == 0:
            reports.append(older_report(rng.choice(groups[::2])))
            continue
        records = []
        for place in rng.sample(range(len(groups)), rng.randrange(1, 12)):
            kind = INCLUDE if place % 2 else rng.choice((INCLUDE, EXCLUDE))
            records.append((kind, groups[place], rng.sample(hosts, rng.randrange(1, 7))))
        reports.append(report(records))
    return reports


def reports(rng, share):
    """A router at the source and two more with five LANs each, whose lists have 60,000 lines: some 15 times each of
    4,096 reports."""
    plan = Plan(3)
    source_lan = plan.lan(0)
    plan.lan(0, 1)
    plan.lan(0, 2)
    lans = [plan.lan(router) for router in (1, 2) for _ in range(5)]
    flows = flows_of(rng, 256, [source_lan], 128)
    hosts = [flow.source for flow in flows[:128]] + rng.sample(OTHER_HOSTS, 2000)
    groups = [flow.group for flow in flows] + rng.sample(GROUPS, 100)
    lists = {}
    for lan in lans:
        some = listed_reports(rng, rng.sample(groups, 150), hosts, int(4096 * share))
        lists[lan] = Reports(rng.choices(some, k=int(60000 * share)))
    return Domain(rng, plan, flows, silent(plan, lists))


def chain(rng, share):
    """A LAN before, between and behind each two routers; sources in the middle, since no packet passes 256 routers."""
    plan = Plan(256)
    plan.lan(0)
    for router in range(1, 256):
        plan.lan(router - 1, router)
    plan.lan(255)
    flows = flows_of(rng, int(4096 * share), range(124, 132), 256, ttl=200)
    return Domain(rng, plan, flows, subscribed(rng, plan, range(257), packages_of(flows, 16), 4))


def star(rng, share):
    """All routers on the LAN of the sources, each with two LANs of its own."""
    plan = Plan(256)
    hub = plan.lan(*range(256))
    lans = [plan.lan(router) for router in range(256) for _ in range(2)]
    flows = flows_of(rng, int(4096 * share), [hub], 256)
    return Domain(rng, plan, flows, subscribed(rng, plan, lans, packages_of(flows, 32), 16))


def certificate(rng, share):
    """A router on 32 LANs, and on each of these one more with 31 LANs of its own. All LANs take one group from every
    source, and no two of its sources are on one LAN, so that each flow has a tree of its own."""
    plan = Plan(33)
    near = [plan.lan(0, router) for router in range(1, 33)]
    lans = near + [plan.lan(router) for router in range(1, 33) for _ in range(31)]
    count = int(241 * share)
    hosts = zip(rng.sample(HOSTS, count), rng.sample(lans, count))
    flows = [Flow(GROUPS[0], source, lan, 64) for source, lan in hosts]
    return Domain(rng, plan, flows, subscribed(rng, plan, lans, [[GROUPS[0]]], 1))


def filters(rng, group, sources, count):
    """The reports of a LAN of one record each: of those that name what they take, those that name what they don't, or
    both in turn."""
    near = rng.sample(sources, len(sources) // 3)
    blocked = rng.sample(sources, 300)
    kinds = rng.choice(((INCLUDE,), (EXCLUDE,), (INCLUDE, EXCLUDE)))
    for number in range(count):
        kind = kinds[number % len(kinds)]
        own = rng.sample(near, 366) if kind == INCLUDE else blocked + rng.sample(sources, 66)
        yield report([(kind, group, own)])


def onegroup(rng, share):
    """16 routers on one LAN, with two LANs each, on which the sources are and the hosts that name them."""
    plan = Plan(16)
    plan.lan(*range(16))
    lans = [plan.lan(router) for router in range(16) for _ in range(2)]
    sources = rng.sample(HOSTS, int(ROWS * share))
    flows = [Flow(GROUPS[0], source, rng.choice(lans), 64) for source in sources[: len(sources) // 16]]
    lists = {lan: Reports(filters(rng, GROUPS[0], sources, int(216 * share))) for lan in lans}
    others = [(GROUPS[0], source) for source in sources[len(flows) :]]
    return Domain(rng, plan, flows, silent(plan, lists), others)


def wild(rng, share):
    """A tree of routers with three below each and three LANs of each; rows for every source, of the listed groups
    too."""
    plan = Plan(20)
    for router in range(1, 20):
        plan.lan((router - 1) // 3, router)
    lans = [plan.lan(router) for router in range(20) for _ in range(3)]
    flows = flows_of(rng, int(500 * share), lans, 50)
    listed = [flow.group for flow in flows]
    groups = listed + rng.sample(range(GROUPS[0], GROUPS[0] + 2**20), int(ROWS * share) - 2 * len(listed))
    reports = subscribed(rng, plan, lans, packages_of(flows, 10), 4)
    return Domain(rng, plan, flows, reports, [(group, 0) for group in groups])


def onecache(rng, share):
    """One router on 32 LANs, most rows going out by 28 of its vifs."""
    plan = Plan(1)
    lans = [plan.lan(0) for _ in range(32)]
    flows = flows_of(rng, int(256 * share), lans[:1], 16)
    others = other_rows(rng, int(ROWS * share) - len(flows))
    reports = subscribed(rng, plan, lans, packages_of(flows, 8), 4)
    return Domain(rng, plan, flows, reports, others, oifs=(28,))


def unkind(pairs_of, arrange=None, order="little"):
    """The shape of four routers on one LAN, with four LANs each, whose tables have these rows in this order. Every 16th
    row is of a listed flow."""

    def made(rng, share):
        """The domain at this share of its size."""
        plan = Plan(4)
        near = plan.lan(*range(4))
        lans = [plan.lan(router) for router in range(4) for _ in range(4)]
        pairs = pairs_of(rng, int(ROWS * share))
        flows = [Flow(group, source, near, 64) for group, source in pairs[::16]]
        others = [pair for number, pair in enumerate(pairs) if number % 16]
        groups = list(dict.fromkeys(flow.group for flow in flows))
        reports = subscribed(rng, plan, lans, [groups], 1)
        return Domain(rng, plan, flows, reports, others, arrange=arrange, order=order)

    return made


def any_pairs(rng, count):
    """Different groups and sources."""
    return list(zip(rng.sample(GROUPS, count), rng.sample(HOSTS, count)))


def near_pairs(rng, count):
    """One group, and sources that differ in their last 16 bits alone."""
    return [(GROUPS[0], HOSTS[0] + n) for n in rng.sample(range(65536), count)]


def pairs_of_group(rng, count):
    """All sources of one group."""
    return [(GROUPS[0], source) for source in rng.sample(HOSTS, count)]


def pairs_of_source(rng, count):
    """All groups of one source."""
    return [(group, HOSTS[0]) for group in rng.sample(GROUPS, count)]


def ascend(rows):
    """Puts rows into the order of their groups and then sources, upwards."""
    rows.sort(key=lambda row: row[:2])


def descend(rows):
    """The same, downwards."""
    rows.sort(key=lambda row: row[:2], reverse=True)


SHAPES = {
    made.__name__: made
    for made in (iptv, market, campus, reports, chain, star, certificate, onegroup, wild, onecache)
}
UNKIND = {
    "unordered": unkind(any_pairs),
    "equal-beginnings": unkind(near_pairs, order="big"),
    "ascending": unkind(any_pairs, ascend),
    "descending": unkind(any_pairs, descend),
    "one-group": unkind(pairs_of_group),
    "one-source": unkind(pairs_of_source),
}


FORMS = {form: certificate for form in ("as-written", "version-one", "spaced", "turned")}


def faulty(rng, share):
    """The chain, with no vif in the rows of the routers on the source's LAN."""
    domain = chain(rng, share)
    for flow, tree in zip(domain.flows, domain.tree_of):
        rows = domain.trees[tree].rows
        for router, _ in domain.hearers[flow.lan]:
            rows[router] = (rows[router][0], [])
    return domain


FAULTY = {"faulty": faulty}


def write_faulty_answers(folder):
    """Writes what audit has to say of the folder's files, as tests/audited/answers.py works it out."""
    texts.write_text(f"{folder}/audited", answers.audit([f"{folder}/files"]).output())


def main():
    name, share, folder = sys.argv[1:]
    domain = (SHAPES | UNKIND | FORMS | FAULTY)[name](random.Random(SEED), float(share))
    texts.write(domain, folder, name if name in FORMS else "as-written")
    if name in FAULTY:
        write_faulty_answers(folder)


if __name__ == "__main__":
    main()
