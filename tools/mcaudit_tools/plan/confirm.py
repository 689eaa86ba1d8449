"""What the proved program says of plans: of each step, of the end, and of the time when what is down is up again. A
plan that it doesn't find right, or of which a step makes a loop, a duplicate or a stray, is none.

Plans of different flows are of different entries. So the first steps of all plans are audited at once, then the second
ones, and so on: as many audits as the longest plan has steps."""
import dataclasses

from mcaudit_tools.common import Failed
from mcaudit_tools.plan.domain import judge
from mcaudit_tools.rewrite import Entry


@dataclasses.dataclass
class Plan:
    """A plan of a flow, or why there is none."""

    flow: object
    task: object = None
    entries: "dict | None" = None  # of all routers, in the end
    steps: list = dataclasses.field(default_factory=list)
    count: int = 0  # of changes
    least: int = 0  # changes that every plan has
    reasons: list = dataclasses.field(default_factory=list)
    found: list = dataclasses.field(default_factory=list)  # what the program finds after each step
    back: "object | None" = None  # what it finds when what is down is back
    has_back: bool = False  # that was looked at

    @property
    def is_made(self):
        """Whether there is a plan."""
        return not self.reasons

    def end(self, reason):
        """Has it be none, for a reason."""
        self.reasons = [reason]

    def routers(self):
        """Returns the routers whose entries it changes."""
        return list(dict.fromkeys(it.router for it in self.steps))


class Confirming:
    """A copy of the domain on which plans are carried out."""

    def __init__(self, mcaudit, copy, before):
        """Takes the program, the copy as it is before the plans, and what the program says of it."""
        self.mcaudit, self.copy, self.before = mcaudit, copy, before

    def judge(self):
        """Returns what the program says of the copy now."""
        self.copy.write()
        return judge(self.mcaudit, self.copy.folder)

    def put(self, router, flow, entry):
        """Gives a router an entry of a flow, or takes it away."""
        self.copy.put(router, flow.source, flow.group, None if entry is None else Entry(*entry))

    def carry_out(self, plans):
        """Carries the plans out, step by step, and returns what the program says in the end."""
        now, made = self.before, [it for it in plans if it.is_made]
        for number in range(max((len(it.steps) for it in made), default=0)):
            due = [it for it in made if it.is_made and number < len(it.steps)]
            for plan in due:
                step = plan.steps[number]
                self.put(step.router, plan.flow, step.entry)
            last, now = now, self.judge()
            for plan in due:
                plan.found.append(now.finding(plan.flow.number))
                self.check_step(plan, last.finding(plan.flow.number), plan.found[-1])
        for plan in made:
            finding = now.finding(plan.flow.number)
            if plan.is_made and finding is not None:
                plan.end(f"no plan found: one was made that mcaudit does not find right, but {finding.text}")
        self.undo([it for it in made if not it.is_made])
        return self.check_end(plans)

    def check_step(self, plan, was, found):
        """Ends a plan of which a step makes a loop, a duplicate or a stray where there was none, or one more."""
        step = plan.steps[len(plan.found) - 1]
        if found is not None and found.is_worse and (was is None or not was.is_worse or step.is_worse):
            plan.end(f"in each order of its commands that was tried one makes {found.text}")

    def undo(self, plans):
        """Gives back the entries that were there before these plans."""
        for plan in plans:
            for router in plan.routers():
                self.put(router, plan.flow, plan.task.entries.get(router))

    def check_end(self, plans):
        """Returns what the program says in the end: each plan's flow is right, and each that was right before."""
        after = self.judge()
        made = {it.flow.number for it in plans if it.is_made}
        lost = [it for it in after.wrong if it in made or it not in self.before.wrong]
        if lost:
            raise Failed(f"nothing is printed: mcaudit does not find these flows right in the end: {lost}")
        return after

    def come_back(self, plans):
        """Takes plans that were made while something was down, and notes of each what the program finds once it is up
        again with the entries that it had. The copy is one of that time."""
        for plan in plans:
            for router in plan.routers():
                own = self.copy.cache(router).entry(plan.flow.source, plan.flow.group)
                self.put(router, plan.flow, joined(plan.task.entries.get(router), plan.entries[router], own))
        found = self.judge()
        for plan in plans:
            plan.back, plan.has_back = found.finding(plan.flow.number), True


def joined(was, now, own):
    """Returns the entry that a router has once it is up again: what the plan made of it, and the outgoing vifs that
    were down before the plan."""
    if own is None or own.vif != now[0]:
        return now
    down = {vif: threshold for vif, threshold in own.outgoing.items() if was is None or vif not in was[1]}
    return now[0], {**down, **now[1]}
