#!/usr/bin/env python3
"""Plans random domains with mcaudit-plan, and carries each plan out by other code: its commands are read and done on the
rows that were made, and the program audits the files of them after each step.

  python3 tests/audited/plans.py PROGRAM [COUNT [FIRST]]

The domains are those of random_domains.py with the numbers from FIRST (0) on, COUNT (300) of them, turned some more, with
times to live that mostly suffice. Of each flow that isn't right:
- a plan's steps lead to the entries and the findings that are told of them, none makes a loop, a duplicate or a stray
  where there was none, the LANs that lose the stream are those that are told, and in the end the flow is right;
- no plan that was made is refused by the program;
- where it has no plan, no one or two changes make it right, and where it has one, none less than every plan is told to
  have: all sets of so many are tried, each by the flight of answers.py.
All plans together have at most 1.1 times as many changes as they are told to have at least. Each kind of plan and of
reason has to come. The last line counts the domains: `N passed, M failed`. The status is 0 if none failed and one was
run.
"""
import itertools
import json
import os
import random
import re
import subprocess
import sys
import tempfile
from collections import Counter

sys.dont_write_bytecode = True
import answers
import random_domains
from tried import counts, try_all

TOOL = os.path.join(os.path.dirname(os.path.abspath(__file__)), "..", "..", "tools", "mcaudit-plan")
SECONDS = 120
COUNT = 300
MOST = 1.1
TURNS = 12
TTLS = [3, 64, 64, 64, 64, 255]
GROUPS = random_domains.GROUPS[:2]
DEVICES = random_domains.DEVICES[:3] + ["eth2", "eth3", "eth5", "eth6", "eth7", "vlan.9"]
TRIED = 2  # changes of the greatest sets that are tried
SHOWN = {"plan", "two entries", "turn", "by hand", "several steps", "gone", "use", "assumed", "can't be reached",
         "needs a ttl", "no router has an entry", "groups that are none", "for every source", "a rule first"}
COMMAND = re.compile(r"smcroutectl (add|remove) (\S+) ([0-9.]+) ([0-9.]+)((?: \S+)*)")
WORD = re.compile(r"(?!-)[A-Za-z0-9_.@:/-]+")
TOTALS = Counter()


class Made(random_domains.Made):
    """A domain to plan: with more routers than others have, of which most LANs want the flows."""

    def __init__(self, number):  # pylint: disable=super-init-not-called
        self.pick = pick = random.Random(f"plans {number}")
        self.lans = [f"l{place}" for place in range(pick.randint(3, 7))]
        self.routers = [f"r{place}" for place in range(1, pick.randint(3, 7))]
        self.orders = {router: pick.choice(["little", "big"]) for router in self.routers}
        self.interfaces = {router: self.interfaces_of() for router in self.routers}
        self.sources = {random_domains.SOURCES[0]: pick.choice(self.lans)}
        self.flows = [(source, group, pick.choice(TTLS)) for source in self.sources for group in GROUPS]
        self.vifs = {router: self.vifs_of(router) for router in self.routers}
        self.rows, self.firsts, self.added = {router: [] for router in self.routers}, {}, set()
        for source, group, _ in self.flows[:pick.choice([1, 2, 2, 2])]:
            self.add_tree(source, group)
        for _ in range(pick.randint(1, TURNS)):
            self.turn_something()
        self.add_on_demand(random.Random(f"on demand {number}"))
        for rows in self.rows.values():
            if number % 16:  # mostly without rows of groups that are none
                rows[:] = [row for row in rows if not row[0].startswith("3.")]
            for row in rows:
                row[3] = {vif: threshold if threshold < 64 or pick.random() < 0.1 else 2
                          for vif, threshold in row[3].items()}

    def add_on_demand(self, pick):
        """Gives routers that have no row of a flow one that forwards to none, as smcroute makes them on demand."""
        for router, rows in self.rows.items():
            for source, group, _ in self.flows:
                if pick.random() < 0.2 and not any(row[:2] == [group, source] for row in rows):
                    rows.append([group, source, str(pick.choice(list(self.vifs[router]))), {}])

    def interfaces_of(self):
        lans = self.pick.sample(self.lans, self.pick.randint(2, min(4, len(self.lans))))
        return dict(zip(self.pick.sample(DEVICES, len(lans)), lans))

    def report_of(self):
        records = [(self.pick.choice([1, 2, 2]), group, list(self.sources)[:self.pick.randint(0, 1)])
                   for group in GROUPS if self.pick.random() < 0.8]
        return random_domains.report_of(records) + "\n" if records else ""

    def reports_of(self):
        """The reports of the next LAN, which are the same each time that the files are written."""
        if not hasattr(self, "reports"):
            self.reports = itertools.cycle([self.report_of() for _ in self.lans])
        return next(self.reports)

    def row(self, router, source, group):
        """The resolved row of a flow, or None."""
        return next((row for row in self.rows[router] if row[:2] == [group, source] and row[2] != "-1"), None)

    def entry(self, router, source, group):
        """The row as the JSON of a plan has it."""
        row = self.row(router, source, group)
        return row and {"from": int(row[2]), "to": [{"threshold": row[3][vif], "vif": vif} for vif in sorted(row[3])]}

    def vif_of(self, router, device):
        return next(vif for vif, (name, _) in self.vifs[router].items() if random_domains.plain(name) == device)

    def usual_thresholds(self):
        """The threshold that a new outgoing vif gets: of each router and vif that most of its rows had."""
        seen = {}
        for router, rows in self.rows.items():
            for row in rows:
                for vif, threshold in row[3].items():
                    seen.setdefault((router, vif), Counter())[threshold] += 1
        return {at: max(of, key=lambda threshold: (of[threshold], threshold)) for at, of in seen.items()}

    def first(self, router, source, group):
        """The outgoing vifs that the row of a flow had as it was made: an entry that is made again has their thresholds."""
        key = router, source, group
        if key not in self.firsts:
            row = self.row(*key)
            self.firsts[key] = dict(row[3]) if row else {}
        return self.firsts[key]

    def do(self, router, command, usual):
        """Does what a command says, as smcroute does it. Returns what is wrong with it, or nothing."""
        found = COMMAND.fullmatch(command)
        if not found or not all(WORD.fullmatch(word) for word in command.split()):
            return f"no command: {command}"
        verb, device, source, group, devices = found.groups()
        vif, outgoing = self.vif_of(router, device), [self.vif_of(router, it) for it in devices.split()]
        row = self.row(router, source, group)
        first = self.first(router, source, group)
        if row and int(row[2]) != vif and verb == "add" and not row[3] and (router, source, group) in self.added:
            row[2] = str(vif)  # it takes the place of one that forwards nothing
        if row and int(row[2]) != vif or verb == "remove" and not (row and set(outgoing) <= set(row[3])):
            return f"can't be done: {command}"
        if verb == "remove" and not first and (router, source, group) not in self.added:
            return f"smcroute made the entry on demand, and removes nothing by: {command}"
        if verb == "add":
            self.added.add((router, source, group))
        if verb == "add" and not row:
            row = [group, source, str(vif), {}]
            self.rows[router] = [it for it in self.rows[router] if it[:3] != [group, source, "-1"]] + [row]
        if verb == "add":
            row[3] |= {it: usual.get((router, it), 1) for it in outgoing} | {
                it: threshold for it, threshold in first.items() if it in outgoing}
        elif outgoing:
            row[3] = {it: threshold for it, threshold in row[3].items() if it not in outgoing}
        else:
            self.rows[router].remove(row)
        return None

    def set_entry(self, router, source, group, entry):
        """Gives a router an entry, as a person does."""
        self.first(router, source, group)
        rows = [it for it in self.rows[router] if it[:2] != [group, source]]
        made = [[group, source, str(entry["from"]), {it["vif"]: it["threshold"] for it in entry["to"]}]] if entry else []
        self.rows[router] = rows + made


class Plans:
    """The plans of a domain's flows, and what is wrong with them."""

    def __init__(self, program, number, folder):
        self.program, self.number, self.folder = program, number, folder
        self.made = Made(number)
        self.made.write(folder)
        self.domain = answers.Domain(folder)
        self.usual = self.made.usual_thresholds()
        self.use = self.made.routers if number % 3 == 0 else []
        self.wrong, self.shown = [], set()

    def judge(self):
        """Has the domain planned, and looks at each line."""
        words = [f"--use={it}" for it in self.use] + ["--new"] * (self.number % 2) + [
            f"--smcroute={it}" for it in self.made.routers]
        search = os.path.dirname(self.program) + os.pathsep + os.environ["PATH"]
        run = subprocess.run([sys.executable, TOOL, "--json", *words, self.folder], capture_output=True, timeout=SECONDS,
                             env={**os.environ, "PATH": search}, check=False)
        if run.returncode not in (0, 1) or run.stderr:
            self.wrong.append(f"status {run.returncode}: {run.stderr.decode()}")
            return
        before = self.found()
        lines = [json.loads(line) for line in run.stdout.splitlines()][1:-1]
        if [line["flow"] for line in lines] != [flow for flow, found in before.items() if found != "right"]:
            self.wrong.append("other flows are planned than those that aren't right")
        for line in lines:
            if line["plan"] is None:
                self.judge_none(line)
            else:
                self.judge_plan(line, before[line["flow"]])
        hands = any(step["by_hand"] for line in lines for step in line["plan"] or ())
        if run.returncode != int(hands or any(line["plan"] is None for line in lines)):
            self.wrong.append(f"status {run.returncode}")

    def found(self):
        """What the program finds of each flow."""
        self.made.write(self.folder)
        run = subprocess.run([self.program, "audit", "--json", self.folder], capture_output=True, timeout=SECONDS,
                             check=False)
        found = {}
        for line in map(json.loads, run.stdout.splitlines()):
            if "flow" in line:
                place = line.get("finding", {})
                found[line["flow"]] = " ".join(str(place[it]) for it in ("kind", "lan", "router", "vif") if it in place) \
                    or "right"
        return found

    def judge_plan(self, line, found):
        """Carries a plan out."""
        made, pair = self.made, (line["source"], line["group"])
        name, start = f"flow {line['flow']}", self.reached(line)
        self.shown |= {"plan"} | ({"two entries"} if len(line["entries"]) > 1 else set())
        self.shown |= ({"several steps"} if len(line["plan"]) > 1 else set()) | ({"assumed"} if line["assumed"] else set())
        for number, step in enumerate(line["plan"], 1):
            router, was = step["router"], found
            if step["by_hand"]:
                self.shown.add("by hand")
                made.set_entry(router, *pair, step["entry"])
            else:
                had = made.entry(router, *pair)
                fault = made.do(router, step["command"], self.usual)
                self.shown |= {"a rule first"} if had and had == made.entry(router, *pair) else set()
                self.wrong += [f"{name} step {number}: {fault}"] if fault else []
            found = self.found()[line["flow"]]
            if found != step["then"] or made.entry(router, *pair) != step["entry"]:
                self.wrong.append(f"{name} step {number}: {found}, {made.entry(router, *pair)}: {step}")
            if not found.startswith(("right", "Missed")) and was.startswith("Missed"):
                self.wrong.append(f"{name} step {number} makes {found}")
            gone = start and self.reached(line) is not None and start - self.reached(line)
            if gone and gone != set(step["gone"]):
                self.wrong.append(f"{name} step {number}: these lose the stream: {gone}, told are {step['gone']}")
            self.shown |= {"gone"} if step["gone"] else set()
        if found != "right":
            self.wrong.append(f"{name}: it is not right in the end: {found}")
        self.judge_counts(line)

    def judge_counts(self, line):
        """Looks at how many changes a plan has, and has to have."""
        number = 0
        for entry in line["entries"].values():
            was, now = entry["before"] or {"from": None, "to": []}, entry["after"]
            self.shown |= {"turn"} if was["from"] not in (None, now["from"]) else set()
            number += (was["from"] != now["from"]) + len({it["vif"] for it in was["to"]} ^ {it["vif"] for it in now["to"]})
        if number != line["changes"] or line["least"] > number:
            self.wrong.append(f"flow {line['flow']}: {number} changes: {line}")
        self.judge_fewer(line, line["least"] - 1)
        TOTALS.update(changes=line["changes"], least=line["least"])

    def reached(self, line):
        """The LANs that want the flow and get it, or None where a loop, a duplicate or a stray is found."""
        domain = answers.Domain(self.folder)
        travel = answers.Travel(domain, domain.flows[line["flow"] - 1], line["ttl"])
        if travel.finding[0] not in ("Missed", "Clean"):
            return None
        wanting = domain.wanting(domain.flows[line["flow"] - 1])
        return {domain.lans[copy[0]] for copy in travel.carried if copy[0] in wanting}

    def judge_none(self, line):
        """Looks at the reasons why there is no plan."""
        reasons = " ".join(line["why"])
        self.shown |= {it for it in SHOWN if it in reasons}
        strayed = re.search(r"one makes Stray (\S+) ", reasons)
        if strayed:
            self.judge_stray(line, strayed[1])
            return
        if not reasons or any(it in reasons for it in ("no plan found", "none was found", "in each order")):
            self.wrong.append(f"flow {line['flow']}: {reasons}")
        if "groups that are none" not in reasons and "no router has an entry" not in reasons:
            self.judge_fewer(line, TRIED)

    def judge_stray(self, line, router):
        """Sees that copies come to a router whatever is changed, and that it has an entry for every source too: then its
        entry can't be turned by commands without a stray in between."""
        flow, number = self.domain.flows[line["flow"] - 1], self.domain.routers.index(router)
        is_near = number in (router for router, _ in self.domain.on_lan[flow[3]])
        if not is_near or self.domain.tables[number].row_for_every_source(flow[1]) is None:
            self.wrong.append(f"flow {line['flow']}: {line['why']}")

    # ---- all sets of a few changes

    def judge_fewer(self, line, most):
        """Sees that no set of so many changes makes a flow right."""
        flow = self.domain.flows[line["flow"] - 1]
        self.domain = answers.Domain(self.folder) if line["plan"] is None else self.domain
        changes = self.changes(flow)
        if "--use" in " ".join(line["why"]):
            self.shown.add("for every source")
        for count in range(min(most, TRIED) + 1):
            for chosen in itertools.combinations(changes, count):
                if self.is_right(flow, chosen):
                    self.wrong.append(f"flow {line['flow']}: it is right after {chosen}: {line}")
                    return

    def changes(self, flow):
        """All changes of a flow's entries that a plan may make: router, whether the incoming vif is set, and the vif."""
        found = []
        for router, tables in enumerate(self.domain.tables):
            entry = tables.exact.get(flow[:2])
            is_shut = not entry and (tables.row_for_every_source(flow[1]) is not None or flow[:2] in tables.unresolved)
            if is_shut and self.domain.routers[router] not in self.use:
                continue
            if is_shut:
                self.shown.add("use")
            vifs = [vif for vif in tables.vifs if self.domain.placed(router, vif) is not None]
            found += [(router, True, vif) for vif in vifs if not entry or entry.incoming != vif]
            found += [(router, False, vif) for vif in {*vifs, *(vif for vif, _ in (entry.pairs if entry else ()))}]
        return found

    def is_right(self, flow, chosen):
        """Whether the flow is right once these changes are made; where they can't be, it isn't."""
        entries = {}
        for router, is_in, vif in sorted(chosen, key=lambda it: not it[1]):
            row = entries.get(router) or self.domain.tables[router].exact.get(flow[:2])
            if is_in:
                row = answers.Row(flow[1], flow[0], vif, row.pairs if row else [])
            elif row is None:
                return False
            else:
                pairs = dict(row.pairs)
                if pairs.pop(vif, None) is None:
                    pairs[vif] = self.usual.get((self.domain.routers[router], vif), 1)
                row = answers.Row(flow[1], flow[0], row.incoming, sorted(pairs.items()))
            entries[router] = row
        kept = {router: self.domain.tables[router].exact.get(flow[:2]) for router in entries}
        for router, row in entries.items():
            self.domain.tables[router].exact[flow[:2]] = row
        right = all(answers.Travel(self.domain, flow, ttl).finding == ("Clean",) for ttl in (255, flow[2]))
        for router, row in kept.items():
            self.domain.tables[router].exact[flow[:2]] = row
            if row is None:
                del self.domain.tables[router].exact[flow[:2]]
        return right


def try_domain(program, number):
    """Returns what is wrong with the plans of a domain, in one text if anything is, and what they show."""
    with tempfile.TemporaryDirectory(prefix="mcaudit-plans-") as folder:
        plans = Plans(program, number, folder)
        plans.judge()
        text = "\n".join(plans.wrong)
        return [f"domain {number}: {text}"] if plans.wrong else [], plans.shown


def main():
    program = os.path.abspath(sys.argv[1])
    count, first = counts(COUNT)
    status = try_all([(try_domain, program, number) for number in range(first, first + count)], count, SHOWN, "domain")
    print(f"changes {TOTALS['changes']}, at least {TOTALS['least']}")
    if TOTALS["changes"] > MOST * TOTALS["least"]:
        print(f"these are more than {MOST} times as many")
        return 1
    return status


if __name__ == "__main__":
    sys.exit(main())
