"""How plans are printed: as lines, and as objects of JSON."""
import json

from mcaudit_tools import igmp
from mcaudit_tools.audit import counts_text
from mcaudit_tools.common import clean
from mcaudit_tools.plan.words import PIM, Words, assumed

WITH_SMCROUTE = """With smcroute: one step after the other, then the lines of smcroute.conf, since a restart drops
every entry that it does not have; then collect and audit again. The plan is of the tables in SITE."""
WITH_PIM = """By hand (PIM): the daemon makes these entries, and would take the changes away again. What is printed says
where its tree is wrong; --smcroute ROUTER plans the router's commands all the same."""


def entry_object(entry):
    """Returns an entry as JSON has it."""
    if entry is None:
        return None
    return {"from": entry[0], "to": [{"threshold": entry[1][it], "vif": it} for it in sorted(entry[1])]}


class Printer:
    """What is printed of plans."""

    def __init__(self, domain, pim, without_source, site, tried):
        """Takes the domain, the routers of a PIM daemon, what says which LANs ask for a flow without naming its source,
        and the name of the site and the changes that were made of it first."""
        self.domain, self.pim, self.without_source, self.site, self.tried = domain, pim, without_source, site, tried

    def words(self, plan):
        """Returns what has the words of a plan."""
        return Words(self.domain, plan.flow, self.pim)

    def hands(self, plan):
        """Returns why a person has to do steps of a plan, a reason each."""
        words = self.words(plan)
        return list(dict.fromkeys(it for it in map(words.by_hand, plan.steps) if it))

    def notes(self, plan):
        """Returns what to know before the commands are given."""
        flow, notes = plan.flow, []
        lans = self.without_source(flow) if igmp.address_of(flow.group)[0] == igmp.SSM else []
        if lans:
            notes.append(f"{flow.group} is a group of SSM, and {' '.join(lans)} asks for it without naming a source, "
                         "which routers ignore: fix the hosts or the querier first")
        for router in plan.routers():
            if router in plan.task.every_source and not plan.entries[router][1]:
                notes.append(f"{router} has an entry for every source too, which forwards the flow once this entry to "
                             "none is gone, as after a restart")
        if plan.back is not None:
            notes.append(f"when what is down is back: {plan.back.text}; take these changes back before")
        return notes

    def steps(self, plan):
        """Yields each step, with what the program finds then and why a person has to do it; by hand no rule of smcroute
        is needed."""
        words = self.words(plan)
        for step, found in zip(plan.steps, plan.found):
            hand = words.by_hand(step)
            if not (hand and step.is_rule):
                yield step, found, hand

    # Lines

    def lines(self, plan):
        """Yields the lines of a flow."""
        flow = plan.flow
        yield f"flow {flow.number} {flow.source} {flow.group} ttl {flow.ttl}: {flow.finding.text}"
        for number, reason in enumerate(plan.reasons):
            is_plain = number > 0 and reason.startswith("  ") or reason.startswith("no plan found")
            yield f"  {reason}" if is_plain else f"  no plan: {reason}"
        if plan.is_made:
            yield from self.plan_lines(plan)

    def plan_lines(self, plan):
        """Yields the lines of a plan."""
        words = self.words(plan)
        for number, (step, found, hand) in enumerate(self.steps(plan), 1):
            what = f"by hand ({hand}): {words.sentence(step)}" if hand else words.command(step)
            gone = f"; without the stream: {' '.join(step.gone)}" if step.gone else ""
            yield f"  {number} {step.router}: {what}   # then {found.text if found else 'right'}{gone}"
        bound = "no plan has fewer" if plan.least == plan.count else f"none has fewer than {plan.least}"
        yield f"  changes {plan.count} ({bound}), entries {len(plan.routers())}, confirmed: right"
        for note in self.notes(plan):
            yield f"  note: {note}"

    def common_lines(self, plans):
        """Yields what is printed of all plans together: lines of smcroute.conf, and what was assumed."""
        made, conf, known = [it for it in plans if it.is_made], {}, {}
        for plan in made:
            for router, lines in self.words(plan).conf(plan.task.entries, plan.entries).items():
                conf.setdefault(router, []).extend(lines)
            known.update(dict.fromkeys(assumed(self.domain, plan)))
        for router, lines in conf.items():
            yield f"smcroute.conf of {router}"
            yield from (f"  {it}" for it in lines)
        for it in known:
            yield f"assumed: {it} (`phyint DEVICE enable ttl-threshold N` sets it)"
        hands = [it for plan in made for it in map(self.words(plan).by_hand, plan.steps)]
        if not all(hands):
            yield from WITH_SMCROUTE.split("\n")
        if PIM in hands:
            yield from WITH_PIM.split("\n")

    def text(self, plans, after):
        """Yields all lines."""
        for plan in plans:
            yield from self.lines(plan)
        if not plans:
            yield "no flow to plan"
        yield from self.common_lines(plans)
        yield f"after the plan: summary {counts_text(after.summary)}"
        yield f"verdict {after.verdict}"

    # JSON

    def object(self, plan):
        """Returns the object of a flow."""
        flow = plan.flow
        found = {"flow": flow.number, "source": flow.source, "group": flow.group, "ttl": flow.ttl,
                 "found": flow.finding.text, "plan": None, "why": [it.strip() for it in plan.reasons]}
        return {**found, **self.plan_object(plan)} if plan.is_made else found

    def plan_object(self, plan):
        """Returns what an object has of a plan."""
        words, steps = self.words(plan), []
        for step, found, hand in self.steps(plan):
            steps.append({"router": step.router, "by_hand": hand, "command": None if hand else words.command(step),
                          "do": words.sentence(step), "entry": entry_object(step.entry), "gone": list(step.gone),
                          "then": found.text if found else "right"})
        entries = {it: {"before": entry_object(plan.task.entries.get(it)), "after": entry_object(plan.entries[it])}
                   for it in plan.routers()}
        back = None if not plan.has_back else plan.back.text if plan.back else "right"
        return {"plan": steps, "changes": plan.count, "least": plan.least, "entries": entries,
                "conf": words.conf(plan.task.entries, plan.entries), "when_back": back, "notes": self.notes(plan),
                "assumed": list(assumed(self.domain, plan))}

    def json(self, plans, after):
        """Yields all lines of JSON."""
        first = {"format": 1, "site": self.site, "tried": self.tried}
        for it in (first, *map(self.object, plans), {"summary": after.summary, "verdict": after.verdict}):
            yield json.dumps(it, sort_keys=True, separators=(",", ":"))


def show(printer, plans, after, is_json):
    """Prints the plans."""
    for line in (printer.json if is_json else printer.text)(plans, after):
        print(line if is_json else clean(line))
