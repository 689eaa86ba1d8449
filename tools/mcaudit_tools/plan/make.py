"""Plans of flows, or why there are none, before the program has judged them."""
import dataclasses
import functools

from mcaudit_tools.plan.confirm import Plan
from mcaudit_tools.plan.find import find
from mcaudit_tools.plan.reasons import Reasons
from mcaudit_tools.plan.steps import steps_to
from mcaudit_tools.plan.task import NoPlan, Task
from mcaudit_tools.plan.words import has_device

ODD = ("rows there have groups that are none: the byte order in the topology is wrong, so entries that are there "
       "seem to be missing")
NO_ENTRY = "no router has an entry of it: is it idle, or new? --new plans it"


class Maker:
    """What makes the plans."""

    def __init__(self, domain, entries, effort, use, has_new):
        """Takes the domain, the entries of its routers, how long is looked for, the routers of --use, and whether flows
        of which no router has an entry are planned."""
        self.domain, self.entries, self.effort, self.use = domain, entries, effort, frozenset(use)
        self.has_new, self.odd, self.known = has_new, entries.odd(), {}
        self.usual = {router: {vif: entries.threshold(router, vif) for vif in vifs}
                      for router, vifs in domain.placed.items()}

    def task_of(self, flow):
        """Returns what is to be planned of a flow."""
        entries = self.entries
        return Task(self.domain, flow.ttl, flow.lan, flow.wanted, entries.of(flow), entries.every_source(flow),
                    entries.unresolved(flow), self.use, self.usual)

    def plan(self, flow):
        """Returns the plan of a flow. Of flows whose entries are alike all have the same."""
        if self.odd:
            return Plan(flow, reasons=[f"{' '.join(self.odd)}: {ODD}"])
        key = (flow.ttl, flow.lan, flow.wanted, self.entries.key(flow), frozenset(self.entries.every_source(flow)))
        if key not in self.known:
            self.known[key] = self.found(self.task_of(flow))
        task, found, steps = self.known[key]
        if not task.entries and not self.has_new:
            return Plan(flow, reasons=[NO_ENTRY])
        if isinstance(found, NoPlan):
            return Plan(flow, reasons=Reasons(task, flow).of(found))
        return Plan(flow, task, found.entries, [dataclasses.replace(it) for it in steps], found.number, found.least)

    def found(self, task):
        """Returns a task, what is found of it, or why there is no plan, and the steps."""
        if not task.entries and not self.has_new:
            return task, None, []
        try:
            found = find(task, self.effort)
        except NoPlan as fault:
            return task, fault, []
        return task, found, steps_to(task, found.entries, functools.partial(has_device, self.domain))
