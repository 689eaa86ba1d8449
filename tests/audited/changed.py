#!/usr/bin/env python3
"""Makes changes of random domains by the modules of mcaudit-try, and compares the changed files with what the changes
mean, as answers.py reads the files.

  python3 tests/audited/changed.py PROGRAM [COUNT [FIRST]]

The domains are those of random_domains.py with the numbers from FIRST (0) on, COUNT (300) of them, and their topologies
are written in the forms of forms.py. Some changes are made of each, one behind the other. What each makes of tables,
reports and flows is worked out here from what it says, on what answers.py has read; a change that has no meaning there
has to be refused, and each other one has to be made. Files and lines that no change concerns have to keep their bytes.
Interfaces and entries are added and removed again, and LANs join and leave: the folder has the same bytes as before.
Each kind of change has to be made, and each but `down` and `join` refused. The last line counts the domains: `N passed,
M failed`. The status is 0 if none failed and one was tried.
"""
import collections
import copy as copies
import os
import random
import sys
import tempfile

sys.dont_write_bytecode = True
TOP = os.path.join(os.path.dirname(os.path.abspath(__file__)), "..", "..")
sys.path.append(os.path.join(TOP, "tools"))
import answers
import forms
import random_domains
from mcaudit_tools import changes, flows, tried
from mcaudit_tools.common import Refused
from tried import counts, try_all

COUNT = 300
CHANGES = 12
SOURCES = [*random_domains.SOURCES, "10.9.9.9"]
MEANT = [*random_domains.ASKING, "10.9.9.9"]  # the sources of which it is compared whether a LAN wants them
GROUPS = [*random_domains.GROUPS, "239.9.9.9"]
VERBS = ["add", "add", "remove", "remove", "delete", "threshold", "down", "join", "leave", "ttl", "new"]
REFUSED = {*VERBS} - {"down", "join"}  # a LAN that is listed can always join
KINDS = {*VERBS, *(f"{it} refused" for it in REFUSED), "big", "unresolved", "every source"}


class Impossible(Exception):
    """A change that has no meaning."""


def want(holds):
    if not holds:
        raise Impossible


class Meaning:
    """What the files of a folder say, as answers.py reads them, and what changes make of it."""

    def __init__(self, folder):
        found = answers.Domain(folder)
        self.vifs = {name: dict(found.tables[at].vifs) for at, name in enumerate(found.routers)}
        self.rows, self.others, self.unresolved = {}, {}, {}
        for at, name in enumerate(found.routers):
            rows = found.tables[at].rows
            exact = [it for it in rows if it.incoming is not None and it.origin]
            self.rows[name] = {(it.origin, it.group): (it.incoming, dict(it.pairs)) for it in exact}
            self.others[name] = [(it.group, it.incoming, dict(it.pairs)) for it in rows
                                 if it.incoming is not None and not it.origin]
            self.unresolved[name] = collections.Counter((it.origin, it.group) for it in rows if it.incoming is None)
        self.found = copies.deepcopy((self.rows, self.others))
        self.set = {}  # thresholds of vifs, by router and vif
        self.lans = {name: [it[:2] for it in found.interfaces if it[2] == at] for at, name in enumerate(found.lans)}
        self.routers = found.routers
        self.wanted = {name: {(source, group) for source in MEANT for group in GROUPS if found.reports[at].wants(
            answers.address_of(source), answers.address_of(group))} for at, name in enumerate(found.lans)}
        self.flows = [tuple(it[:3]) for it in found.flows]
        self.sources = [address for address, _ in found.sources]

    def values(self):
        """What is compared."""
        return (self.vifs, self.rows, {name: sorted(map(str, it)) for name, it in self.others.items()},
                {name: +it for name, it in self.unresolved.items()}, self.wanted, self.flows)

    def vif(self, router, device):
        found = [vif for vif, (name, _) in self.vifs[router].items() if name == device.encode() and device != "none"]
        want(found)
        return found[0]

    def pair(self, change):
        return answers.address_of(change.source), answers.address_of(change.group)

    def threshold(self, router, vif):
        """What a new outgoing vif gets: what was set, else what most rows that were found have, the greatest of these."""
        if (router, vif) in self.set:
            return self.set[router, vif]
        rows = [pairs for _, pairs in self.found[0][router].values()] + [it[2] for it in self.found[1][router]]
        seen = collections.Counter(pairs[vif] for pairs in rows if vif in pairs)
        return max(seen, key=lambda it: (seen[it], it), default=1)

    def make(self, change):
        getattr(self, change.verb)(change)

    def add(self, change):
        router, pair = change.who, self.pair(change)
        start, vifs = self.vif(router, change.device), [self.vif(router, it) for it in change.outgoing]
        incoming, pairs = self.rows[router].get(pair, (start, {}))
        want(incoming == start and not set(vifs) & set(pairs) and (vifs or not pairs))
        added = {vif: change.number or self.threshold(router, vif) for vif in vifs}
        if pair not in self.rows[router]:  # the kernel resolves what waits for a new entry alone
            self.unresolved[router].pop(pair, None)
        self.rows[router][pair] = (start, {**pairs, **added})

    def remove(self, change):
        router, pair = change.who, self.pair(change)
        start, vifs = self.vif(router, change.device), [self.vif(router, it) for it in change.outgoing]
        want(pair in self.rows[router])
        incoming, pairs = self.rows[router][pair]
        want(incoming == start and set(vifs) <= set(pairs))
        if vifs:
            self.rows[router][pair] = (incoming, {vif: it for vif, it in pairs.items() if vif not in vifs})
        else:
            del self.rows[router][pair]

    def delete(self, change):
        want(self.pair(change) in self.rows[change.who])
        del self.rows[change.who][self.pair(change)]

    def threshold_of(self, router, vif, number):
        for pairs in [it[1] for it in self.rows[router].values()] + [it[2] for it in self.others[router]]:
            if vif in pairs:
                pairs[vif] = number
        self.set[router, vif] = number

    def down(self, change):
        places = [(change.who, change.device)]
        if change.kind == "lan":
            places = [(self.routers[router], device.decode()) for router, device in self.lans[change.who]]
        elif change.device is None:
            self.vifs[change.who], self.rows[change.who], self.others[change.who] = {}, {}, []
            self.unresolved[change.who].clear()
            return
        for router, device in places:
            there = [vif for vif, (name, flags) in self.vifs[router].items() if name == device.encode() != b"none"
                     and (change.kind != "lan" or not flags & 5)]
            want(there or change.kind == "lan")
            for vif in there:
                del self.vifs[router][vif]
                for pairs in [it[1] for it in self.rows[router].values()] + [it[2] for it in self.others[router]]:
                    pairs.pop(vif, None)

    def join(self, change):
        self.wanted[change.who] |= {(it, change.group) for it in MEANT if change.source in (None, it)}

    def leave(self, change):
        gone = {(it, change.group) for it in MEANT if change.source in (None, it)}
        want(gone & self.wanted[change.who])
        self.wanted[change.who] -= gone

    def ttl(self, change):
        place = [it[:2] for it in self.flows].index(self.pair(change)) if self.is_listed(change) else None
        want(place is not None)
        self.flows[place] = (*self.pair(change), change.number)

    def new(self, change):
        want(change.source in self.sources and not self.is_listed(change))
        self.flows.append((*self.pair(change), change.number))

    def is_listed(self, change):
        return self.pair(change) in [it[:2] for it in self.flows]


def threshold_change(meaning, change):
    """Makes `threshold`, of one entry or of all."""
    vif = meaning.vif(change.who, change.device)
    if change.source is None:
        meaning.threshold_of(change.who, vif, change.number)
        return
    pairs = meaning.rows[change.who].get(meaning.pair(change), (None, {}))[1]
    want(vif in pairs)
    pairs[vif] = change.number


def sentence(pick, made, verb):
    """A change at random, most of them of what is there."""
    router, lan = pick.choice(made.routers), pick.choice(made.lans)
    devices = [device for device, _ in made.vifs[router].values()]
    device = random_domains.plain(pick.choice([*devices, *devices, "eth9", "none"]))
    rows = [it for it in made.rows[router] if it[0][:2] == "23" and it[1] != "0.0.0.0" and it[2] != "-1"]
    if rows and pick.random() < 0.6:
        group, source, incoming, pairs = pick.choice(rows)
        device = random_domains.plain(made.vifs[router].get(int(incoming), [device])[0])
        others = [random_domains.plain(made.vifs[router][it][0]) for it in pairs if it in made.vifs[router]]
    else:
        group, source, others = pick.choice(GROUPS), pick.choice(SOURCES), []
    pool = list(dict.fromkeys([*others, *map(random_domains.plain, devices)]))
    outgoing = pick.sample(others if others and pick.random() < 0.5 else pool, pick.randint(0, 1))
    number = pick.choice(random_domains.THRESHOLDS)
    if verb in ("add", "remove"):
        behind = f" ttl {number}" if verb == "add" and outgoing and pick.random() < 0.5 else ""
        return f"{router}: {verb} {device} {source} {group} {' '.join(outgoing)}{behind}"
    if verb == "delete":
        return f"{router}: delete {source} {group}"
    if verb == "threshold":
        name = outgoing[0] if outgoing else device
        return f"{router}: threshold {name} " + pick.choice([f"{number}", f"{source} {group} {number}"])
    if verb == "down":
        return pick.choice([f"router {router}: down", f"{router}: down {device}", f"lan {lan}: down"])
    if verb in ("join", "leave"):
        ends = pick.choice(GROUPS), pick.choice(SOURCES)
        return f"{lan}: {verb} {' '.join(ends[:pick.randint(1, 2)])}"
    return f"{source} {group}: {'new ' * (verb == 'new')}ttl {pick.choice(random_domains.TTLS)}"


def files_of(folder):
    found = {}
    for name in os.listdir(folder):
        with open(os.path.join(folder, name), "rb") as file:
            found[name] = file.read()
    return found


def lines_kept(before, after, most):
    """Whether but for so many lines the files have the lines that they had, in their order."""
    lost = sum((collections.Counter(before[it].split(b"\n")) - collections.Counter(after[it].split(b"\n"))).total()
               for it in before)
    return before.keys() == after.keys() and lost <= most


def make(copy, meaning, text, kinds):
    """Makes a change on both. Returns what is wrong, or nothing."""
    change = changes.parse(text)
    expected = copies.deepcopy(meaning)
    try:
        (threshold_change if change.verb == "threshold" else Meaning.make)(expected, change)
    except Impossible:
        expected = None
    before = files_of(copy.folder)
    try:
        copy.apply(change)
    except Refused as fault:
        if expected is None or str(fault).endswith(flows.ODD):
            kinds.add(f"{change.verb} refused")
            return None
        return f"{text}: refused: {fault}"
    copy.write()
    if expected is None:
        return f"{text}: it was made, and has no meaning"
    kinds.add(change.verb)
    try:
        found = Meaning(copy.folder)
    except (KeyError, ValueError) as fault:
        return f"{text}: the files can't be read any more: {fault}"
    if found.values() != expected.values():
        return f"{text}:\nexpected {expected.values()}\nfound    {found.values()}"
    most = {"down": None, "threshold": None, "add": None, "leave": None, "new": 2}.get(change.verb, 1)
    if most is not None and not lines_kept(before, files_of(copy.folder), most):
        return f"{text}: other lines were written too"
    meaning.__dict__.update(expected.__dict__)
    return None


def back_and_forth(copy, meaning, pick):
    """Adds what isn't there and removes it again. Returns what is wrong, or nothing."""
    before = files_of(copy.folder)
    for router, vifs in meaning.vifs.items():
        names = [device.decode() for device, _ in vifs.values() if device != b"none"]
        if not names:
            continue
        start, other = pick.choice(names), pick.choice(names)
        steps = [f"{router}: add {start} 10.8.8.8 239.8.8.8 {other} ttl {pick.choice(random_domains.THRESHOLDS)}",
                 f"{router}: remove {start} 10.8.8.8 239.8.8.8"]
        rows = [(pair, it) for pair, it in meaning.rows[router].items() if it[0] in vifs and vifs[it[0]][0] != b"none"]
        if rows:
            (source, group), (incoming, pairs) = pick.choice(rows)
            row = f"{vifs[incoming][0].decode()} {answers.dotted(source)} {answers.dotted(group)}"
            free = [device.decode() for vif, (device, _) in vifs.items() if vif not in pairs and device != b"none"]
            if free:
                steps += [f"{router}: add {row} {free[0]} ttl 9", f"{router}: threshold {free[0]} {row.split(' ', 1)[1]} 3",
                          f"{router}: remove {row} {free[0]}"]
        for text in steps:
            copy.apply(changes.parse(text))
            copy.write()
    for lan in meaning.lans:
        for what in ("join 239.8.8.8", "leave 239.8.8.8", "join 239.8.8.8 10.8.8.8", "leave 239.8.8.8 10.8.8.8"):
            copy.apply(changes.parse(f"lan {lan}: {what}"))
            copy.write()
    after = files_of(copy.folder)
    wrong = [name for name in before if before[name] != after.get(name)]
    return f"there and back again: other bytes in {' '.join(wrong)}" if wrong or before.keys() != after.keys() else None


def try_domain(number):
    """Returns what is wrong with the changes of a domain, and what they show."""
    made, pick, kinds, wrong = random_domains.Made(number), random.Random(number), set(), []
    with tempfile.TemporaryDirectory(prefix="mcaudit-changed-") as folder:
        made.write(folder)
        form = forms.Form(made, number)
        if form.is_1_0:
            with open(os.path.join(folder, "topology"), "w", encoding="utf-8", newline="") as file:
                file.write(form.text.removeprefix("\ufeff"))
        before = files_of(folder)
        with tried.Copy(folder) as copy:
            list(copy.audit("--unlisted"))
            meaning = Meaning(copy.folder)
            kinds |= {"big"} if "big" in made.orders.values() else set()
            kinds |= {"unresolved"} if any(meaning.unresolved.values()) else set()
            kinds |= {"every source"} if any(meaning.others.values()) else set()
            odd = [it for it in made.routers if copy.cache(it).odd_group() is not None]
            wrong.append(None if odd else back_and_forth(copy, meaning, pick))
            for _ in range(CHANGES):
                text = sentence(pick, made, pick.choice(VERBS))
                if text.split(":")[0] not in odd:
                    wrong.append(make(copy, meaning, text, kinds))
            list(copy.audit("--unlisted"))
        if files_of(folder) != before:
            wrong.append("the folder itself was written")
    found = [f"domain {number}: {it}" for it in wrong if it]
    return ["\n".join(found)] if found else [], kinds


def main():
    program = os.path.abspath(sys.argv[1])
    tried.find_tool = lambda name: program
    count, first = counts(COUNT)
    return try_all([(try_domain, number) for number in range(first, first + count)], count, KINDS, "domain")


if __name__ == "__main__":
    sys.exit(main())
