#!/usr/bin/env python3
"""Looks at the line that every tool prints beside a verdict: how old what was judged is, whether packets flow, and what
of the routers was looked at. The clock stands still here, so that each age is worked out by hand.

  python3 tests/tools/basis.py

The last line counts: `N passed, M failed`. The status is 0 if none failed.
"""
import json
import os
import sys
import tempfile
import time

sys.dont_write_bytecode = True
HERE = os.path.dirname(os.path.abspath(__file__))
sys.path += [os.path.join(HERE, "..", "..", "tools"), os.path.join(HERE, "..")]
from ended import status_of  # noqa: E402
from mcaudit_tools import origins  # noqa: E402
from mcaudit_tools.ages import Ages  # noqa: E402
from mcaudit_tools.premises import basis  # noqa: E402
from mcaudit_tools.premises.counters import Counters  # noqa: E402
from mcaudit_tools.premises.domain import Domain  # noqa: E402
from mcaudit_tools.premises.findings import (DROPS, LOST, MORE, NONE_COMES, NOT_KNOWN, STRANGERS,  # noqa: E402
                                             Finding)

NOW = 1_800_000_000
TEN = [f"r{it}" for it in range(1, 11)]
TABLES = {"vif-r1": 40, "cache-r1": 40}


def lists(*ages):
    """Returns the lists of LANs of these ages."""
    return {f"igmp-l{it}": age for it, age in enumerate(ages)}


# What is told of each file: its age in seconds, or who made it and its age, and then its age by the file itself, and
# what could not be checked of it
AGES = (
    ("all of one age", {**TABLES, **lists(41)}, "tables 40 s old; lists of 1 LAN 41 s old"),
    ("lists of several ages", {**TABLES, **lists(41, 500, 10800)},
     "tables 40 s old; lists of 3 LANs 41 s to 3 h old"),
    ("the youngest and the oldest are less than a minute apart", {**TABLES, **lists(40, 99)},
     "tables 40 s old; lists of 2 LANs 99 s old"),
    ("they are a minute apart", {**TABLES, **lists(40, 100)}, "tables 40 s old; lists of 2 LANs 40 s to 100 s old"),
    ("they are a minute apart and told alike", {**TABLES, **lists(7200, 7260)},
     "tables 40 s old; lists of 2 LANs 2 h old"),
    ("this moment", {**TABLES, **lists(0)}, "tables 40 s old; lists of 1 LAN 0 s old"),
    ("seconds end", {**TABLES, **lists(119)}, "tables 40 s old; lists of 1 LAN 119 s old"),
    ("minutes begin", {**TABLES, **lists(120)}, "tables 40 s old; lists of 1 LAN 2 min old"),
    ("minutes end", {**TABLES, **lists(7199)}, "tables 40 s old; lists of 1 LAN 119 min old"),
    ("hours begin", {**TABLES, **lists(7200)}, "tables 40 s old; lists of 1 LAN 2 h old"),
    ("hours end", {**TABLES, **lists(172799)}, "tables 40 s old; lists of 1 LAN 47 h old"),
    ("days begin", {**TABLES, **lists(172800)}, "tables 40 s old; lists of 1 LAN 2 days old"),
    ("the oldest of a router's tables counts", {"vif-r1": 3, "cache-r1": 50, **lists(41)},
     "tables 50 s old; lists of 1 LAN 41 s old"),
    ("the vifs are older", {"vif-r1": 50, "cache-r1": 3, **lists(41)}, "tables 50 s old; lists of 1 LAN 41 s old"),
    ("a router whose tables are older", {**TABLES, "vif-r2": 40, "cache-r2": 9000, **lists(41)},
     "tables 40 s to 2 h old; lists of 1 LAN 41 s old"),
    ("facts", {**TABLES, "facts-r1": 300, **lists(41)}, "tables 40 s old; lists of 1 LAN 41 s old; facts 5 min old"),
    ("a list that was decided", {**TABLES, **lists(41), "igmp-l7": ("static", 9000)},
     "tables 40 s old; lists of 1 LAN 41 s old; decided, not gathered: l7"),
    ("lists of a daemon, of a bridge, and of a LAN whose hosts nobody asks",
     {**TABLES, **lists(41), "igmp-l7": ("daemon", 40), "igmp-l8": ("bridge", 40),
      "igmp-l9": ("daemon", 40, 40, ["hosts"])},
     "tables 40 s old; lists of 4 LANs 41 s old; as routers believe: l7 l8; "
     "empty since no router there asks hosts: l9"),
    ("all lists decided", {**TABLES, "igmp-l7": ("static", 9000)}, "tables 40 s old; decided, not gathered: l7"),
    ("many lists decided", {**TABLES, **{f"igmp-l{it}": ("static", 5) for it in range(9)}},
     "tables 40 s old; decided, not gathered: l0 l1 l2 l3 l4 l5 l6 l7 .."),
    ("a minute ahead", {**TABLES, **lists(-60)}, "tables 40 s old; lists of 1 LAN 0 s old"),
    ("more than a minute ahead", {**TABLES, **lists(-61, 41)},
     "tables 40 s old; lists of 1 LAN 41 s old; lists of l0 of a later time than now"),
    ("a clock that went back by a day", {"vif-r1": -86400, "cache-r1": -86400, **lists(-86000)},
     "tables of r1 of a later time than now; lists of l0 of a later time than now"),
    ("one table ahead", {"vif-r1": 40, "cache-r1": -3600, **lists(41)},
     "tables of r1 of a later time than now; lists of 1 LAN 41 s old"),
    ("the beginning of time", {**TABLES, **lists(NOW)}, "tables 40 s old; lists of 1 LAN 20833 days old"),
    ("a time that is far ahead", {**TABLES, "igmp-l0": (None, NOW - origins.MOST_SECONDS, 0)},
     "tables 40 s old; lists of l0 of a later time than now"),
    ("a table that is not there", {"vif-r1": 40, **lists(41)},
     "tables 40 s old; tables of r1 of an unknown age; lists of 1 LAN 41 s old"),
    ("a list that was changed by hand", {**TABLES, **lists(41), "igmp-l1": ("capture", 5000, 300)},
     "tables 40 s old; lists of 1 LAN 41 s old; lists of 1 LAN written by hand 5 min ago: l1"),
    ("an older list put in its place", {**TABLES, **lists(41), "igmp-l1": ("capture", 300, 5000)},
     "tables 40 s old; lists of 1 LAN 41 s old; lists of 1 LAN written by hand 83 min ago: l1"),
    ("lists that were written by hand", {**TABLES, **lists(41), "igmp-l8": ("operator", 45),
                                         "igmp-l7": ("operator", 10800)},
     "tables 40 s old; lists of 1 LAN 41 s old; lists of 2 LANs written by hand 45 s to 3 h ago: l7 l8"),
    ("all lists written by hand, and one decided", {**TABLES, "igmp-l7": ("operator", 41), "igmp-l8": ("static", 9)},
     "tables 40 s old; lists of 1 LAN written by hand 41 s ago: l7; decided, not gathered: l8"),
    ("many lists written by hand", {**TABLES, **{f"igmp-l{it}": ("operator", 41) for it in range(9)}},
     "tables 40 s old; lists of 9 LANs written by hand 41 s ago: l0 l1 l2 l3 l4 l5 l6 l7 .."),
    ("a list written by hand of a later time", {**TABLES, "igmp-l7": ("operator", -3600)},
     "tables 40 s old; lists of l7 of a later time than now"),
    ("tables written by hand", {"vif-r1": ("operator", 40), "cache-r1": ("operator", 40), **lists(41)},
     "tables 40 s old; lists of 1 LAN 41 s old"),
    ("a copy", {"vif-r1": ("collect", 400, 3), "cache-r1": ("collect", 400, 3), "igmp-l0": ("capture", 5000, 3)},
     "tables 6 min old; lists of 1 LAN 83 min old"),
    ("nothing there", {}, "tables of r1 of an unknown age; lists of l0 of an unknown age"))


TOLD_BY_0_2_0 = json.dumps({"version": 1, "files": {
    "vif-r1": "2027-01-15T07:59:20Z", "cache-r1": "2027-01-15T07:59:20Z", "igmp-l0": "2027-01-15T07:59:19Z"}})


def ages_of(folder, files, told_so=None):
    """Makes a folder with these files, and with this text as its collected.json, where it isn't what tells of them.
    Returns their ages."""
    told, routers, lans = {}, {"r1"}, {"l0"} if not files else set()
    for name, value in files.items():
        by, age, *own = value if isinstance(value, tuple) else (None, value)
        by = by or ("capture" if name.startswith("igmp-") else "collect")
        told[name] = {"by": by, "of": None, "time": NOW - age, "unchecked": own[1] if own[1:] else []}
        path = os.path.join(folder, name)
        with open(path, "wb"):
            pass
        os.utime(path, (0, NOW - own[0] if own else NOW - age))
        kind, _, of = name.partition("-")
        (lans if kind == "igmp" else routers).add(of)
    with open(os.path.join(folder, "collected.json"), "w", encoding="ascii") as file:
        file.write(json.dumps({"version": 2, "files": told}) if told_so is None else told_so)
    return Ages.of_set(folder, "site", sorted(routers), sorted(lans))


def none_known(router, kind="facts", text="facts: not asked"):
    """Returns that something isn't known of a router."""
    return Finding(NOT_KNOWN, kind, router, text)


ALL = "rp_filter, links, MTU, netfilter, ip mrule"
LOOKED = (  # routers, those that are excluded, what was found, and what is told
    ("all", TEN, [], [], f"{ALL} looked at on 10 of 10 routers"),
    ("one was not asked", TEN, [], [none_known("r7")], f"{ALL} looked at on 9 of 10 routers (r7: not asked)"),
    ("none was asked", TEN[:2], [], [none_known("r1"), none_known("r2")], f"{ALL}: not looked at (r1 r2: not asked)"),
    ("one is excluded", TEN[:9], ["r10"], [], f"{ALL} looked at on 9 of 10 routers (r10: excluded)"),
    ("all are excluded", [], ["r1"], [], f"{ALL}: not looked at (r1: excluded)"),
    ("one kind", TEN[:2], [], [none_known("r1", "netfilter", "netfilter: nft: Operation not permitted")],
     "rp_filter, links, MTU, ip mrule looked at on 2 of 2 routers; netfilter looked at on 1 of 2 routers "
     "(r1: not known: nft: Operation not permitted)"),
    ("one kind, beside what was found of it", TEN[:1], [],
     [Finding(DROPS, "links", "r1", "eth0 is down"), none_known("r1", "links", "whether eth1 is up")],
     "rp_filter, MTU, netfilter, ip mrule looked at on 1 of 1 routers; links: not looked at "
     "(r1: not known: whether eth1 is up)"),
    ("what was found is known", TEN[:2], [], [Finding(DROPS, "rp_filter", "r1", "rp_filter 1")],
     f"{ALL} looked at on 2 of 2 routers"),
    ("old facts", TEN[:1], [], [none_known("r1", text="facts: they are 300 s older than its tables")],
     f"{ALL}: not looked at (r1: they are 300 s older than its tables)"),
    ("many routers", TEN, [], [none_known(it) for it in TEN],
     f"{ALL}: not looked at (r1 r2 r3 r4 r5 r6 r7 r8 ..: not asked)"),
    ("many reasons", TEN[:4], [], [none_known(it, text=f"facts: reason {it}") for it in TEN[:4]],
     f"{ALL}: not looked at (r1: reason r1; r2: reason r2; r3: reason r3 ..)"),
    ("words for a terminal", TEN[:1], [], [none_known("r1", text="facts: \x1b]0;x\x07\n\u202e")],
     f"{ALL}: not looked at (r1: ?]0;x???)"),
    ("words without end", TEN[:1], [], [none_known("r1", text="facts: " + 200 * "x")],
     f"{ALL}: not looked at (r1: {80 * 'x'} ..)"))
FLOWS = [("10.0.0.5", f"239.1.2.{it}") for it in (3, 4, 5)]
STARVED = [Finding(NONE_COMES, "packets", "r2", "r1 took in 300 packets", flow=FLOWS[0])]
LATER = [Finding(NONE_COMES, "packets", "r4", "r1 took in 900 packets", flow=FLOWS[1])]
OTHERS = [Finding(STRANGERS, "packets", "r3", "300 packets came by another vif", flow=FLOWS[2]),
          Finding(MORE, "packets", "r3", "r1 took in 300 packets, and r3 400", flow=FLOWS[0]),
          Finding(LOST, "packets", "r3", "its vifs count 900 copies"),
          Finding(LOST, "packets", "r3", "r1 took in 300 packets, and r3 200", flow=FLOWS[1])]
LONG = Finding(STRANGERS, "packets", 32 * "r", 900 * "x", flow=("198.51.100.200", "239.255.255.250"))
PACKETS = (
    (Counters(flows=24, come=24, window="in 7 s"), "packets flow on 24 of 24 flows"),
    (Counters(flows=24, come=20, idle=3, findings=STARVED, window="in 7 s"),
     "packets flow on 20 of 24 flows, idle 3, with a finding 1 (none comes: flow 10.0.0.5 239.1.2.3: r2)"),
    (Counters(flows=24, come=21, findings=OTHERS, window="in 7 s"),
     "packets flow on 21 of 24 flows, with a finding 3 (lost: flow 10.0.0.5 239.1.2.4: r3, and 2 more)"),
    (Counters(flows=24, come=21, findings=OTHERS + STARVED + LATER, window="in 7 s"),
     "packets flow on 21 of 24 flows, with a finding 3 (none comes: flow 10.0.0.5 239.1.2.3: r2, and 2 more)"),
    (Counters(flows=1, findings=[LONG], window="in 7 s"), "packets flow on 0 of 1 flows, with a finding 1 "
     "(by another vif: flow 198.51.100.200 239.255.255.250: rrrrrrrrrrrrrrrrrrrrrrrrrrrrrrrr)"),
    (Counters(flows=4, come=3, findings=OTHERS[2:3], window="in 7 s"), "packets flow on 3 of 4 flows"),
    (Counters(flows=2, come=1, unjudged=[(("10.0.0.5", "239.1.2.4"), "r1", "it was not read")], window="in 7 s"),
     "packets flow on 1 of 2 flows, not judged everywhere 1"),
    (Counters(flows=24, reason="2 of 4 sets"), "packets: not looked at (2 of 4 sets)"),
    (Counters(window="in 7 s"), "packets: not looked at (no flow is right)"))


def domain_of(routers, excluded):
    """Returns a domain with these routers."""
    return Domain(routers, [], {}, {}, [], {}, True, excluded)


def whole_line():
    """Returns the line of ten routers and twelve LANs."""
    tables = {f"{kind}-{it}": 40 for kind in ("vif", "cache") for it in TEN}
    facts = {f"facts-{it}": 40 for it in TEN if it != "r7"}
    with tempfile.TemporaryDirectory() as folder:
        ages = ages_of(folder, {**tables, **facts, **lists(*[41] * 6, *[3600] * 5, 10800)})
        return basis.line_of(ages, PACKETS[0][0], domain_of(TEN, []), [none_known("r7")])


def told():
    """Yields what each case is, what is told, and what should be."""
    for name, files, expected in AGES:
        with tempfile.TemporaryDirectory() as folder:
            yield name, "; ".join(basis.ages_of(ages_of(folder, files))), expected
    for broken in ("", "{", '{"version": 3, "files": {}}', '{"version": 2, "files": {"igmp-l0": {"time": NaN}}}',
                   json.dumps({"version": 2, "files": {"igmp-l0": {"by": "capture", "of": None, "time": -1}}})):
        with tempfile.TemporaryDirectory() as folder:
            yield (f"collected.json is {broken!r}", "; ".join(basis.ages_of(ages_of(folder, {
                **TABLES, "igmp-l0": ("capture", 41, 90)}, broken))), "tables 40 s old; lists of 1 LAN 90 s old")
    with tempfile.TemporaryDirectory() as folder:
        yield "collected.json of 0.2.0, which doesn't say who wrote its lists", "; ".join(basis.ages_of(ages_of(
            folder, {**TABLES, **lists(41, 300)}, TOLD_BY_0_2_0))), (
            "tables 40 s old; lists of 1 LAN 41 s old; lists of 1 LAN written by hand 5 min ago: l1")
    for name, routers, excluded, findings, expected in LOOKED:
        parts = basis.parts_of(Ages("", {}), Counters(reason="x"), domain_of(routers, excluded), findings)
        yield name, "; ".join(parts[1:]), expected
    yield "no domain", "; ".join(basis.looked_of(None, [])), f"{ALL}: not looked at"
    for counters, expected in PACKETS:
        yield f"counters {counters}", counters.sentence(), expected
        yield f"details of {counters}", counters.details(), ["packets: in 7 s"] * (" flow on " in expected)
    yield "the whole line", whole_line(), (
        "tables 40 s old; lists of 12 LANs 41 s to 3 h old; facts 40 s old; packets flow on 24 of 24 flows; "
        f"{ALL} looked at on 9 of 10 routers (r7: not asked)")


def main():
    """Looks at each line. Returns the status."""
    time.time = lambda: float(NOW)
    counts = {True: 0, False: 0}
    for name, said, expected in told():
        counts[said == expected] += 1
        if said != expected:
            print(f"failed: {name}: {said!r}, not {expected!r}")
    return status_of(counts[True], counts[False])


if __name__ == "__main__":
    sys.exit(main())
