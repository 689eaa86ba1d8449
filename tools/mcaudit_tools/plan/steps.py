"""The steps of a plan: commands one after the other, in an order in which none makes a loop, a duplicate or a stray,
and as few LANs as possible lose the stream for as few steps as a greedy choice finds."""
import collections
import dataclasses

from mcaudit_tools.plan.flight import fly, missed
from mcaudit_tools.plan.task import without

ADD, REMOVE = "add", "remove"


@dataclasses.dataclass
class Step:
    """One command: outgoing vifs are put into an entry, which is made where there is none, or taken out of it; without
    any, all of it goes, or one that forwards to none comes."""

    router: str
    verb: str
    vif: int  # the incoming one
    outgoing: tuple
    entry: "tuple | None" = None  # as it is then
    is_new: bool = False  # there is no entry before that comes in there
    is_worse: bool = False  # it makes a loop, a duplicate or a stray that was not there
    gone: tuple = ()  # wanting LANs that had the stream before the plan and don't have it then
    after: "int | None" = None  # the number of the step that has to come before it, where steps are not in order yet
    in_place_of: "int | None" = None  # the incoming vif of an entry to none whose place it takes

    @property
    def is_whole(self):
        """Whether it takes away all of an entry."""
        return self.verb == REMOVE and not self.outgoing

    @property
    def is_rule(self):
        """Whether it only gives smcroute a rule for an entry that is there."""
        return self.verb == ADD and not self.outgoing and not self.is_new


def steps_between(old, new, has_device):
    """Returns the steps that lead from entries to new ones, in no order yet: interfaces one by one, or all of an entry
    where its incoming interface changes and it forwards, or one that goes has no device any more."""
    steps = []
    for router in sorted({*old, *new}):
        was, now = old.get(router), new.get(router)
        if was == now:
            continue
        is_kept = was is not None and was[0] == now[0]
        if is_kept and all(has_device(router, it) for it in was[1].keys() - now[1].keys()):
            steps += [Step(router, REMOVE, was[0], (it,)) for it in sorted(was[1].keys() - now[1].keys())]
            steps += [Step(router, ADD, now[0], (it,)) for it in sorted(now[1].keys() - was[1].keys())]
            continue
        before = None
        if was is not None and was[1]:
            before = len(steps)
            steps.append(Step(router, REMOVE, was[0], ()))
        steps.append(Step(router, ADD, now[0], tuple(sorted(now[1])), after=before))
    return steps


def entries_after(entries, step, new):
    """Returns the entries after a step on the way to new ones."""
    found = dict(entries)
    if step.is_whole:
        del found[step.router]
    elif step.verb == REMOVE:
        for vif in step.outgoing:
            found[step.router] = without(found[step.router], vif)
    else:
        had = found[step.router][1] if step.router in found else {}
        found[step.router] = (step.vif, {**had, **{it: new[step.router][1][it] for it in step.outgoing}})
    return found


class Order:
    """The orders of the steps that lead to new entries."""

    def __init__(self, task, new):
        """Takes the entries to which the steps lead."""
        self.task, self.new = task, new
        self.reach = fly(task, new).reach

    def depth(self, step):
        """Returns how many routers are before the one of a step, once the plan is carried out."""
        lan = self.task.domain.placed[step.router].get(step.vif)
        return self.reach[lan].rank if lan in self.reach else 0

    def state(self, entries):
        """Returns which copies are too many or gone, and which wanting LANs are reached."""
        flight = fly(self.task, entries)
        faults = collections.Counter([lan for lan, _, _ in flight.seconds] + flight.strays + flight.opens)
        return faults, frozenset(self.task.wanted) - frozenset(missed(self.task, flight))

    def greedy(self, steps):
        """Returns the steps in an order in which each is the best: with no fault that was not there, then with the
        fewest LANs lost and the most reached; of equal ones those that take out come first, and of those that put in
        the last routers."""
        entries, left, found = self.task.entries, list(range(len(steps))), []
        faults, reached = self.state(entries)
        while left:
            choices = []
            for number in left:
                step = steps[number]
                if step.after is None or step.after not in left:
                    after = entries_after(entries, step, self.new)
                    state = self.state(after)
                    key = (bool(state[0] - faults), len(reached - state[1]), sum(state[0].values()), -len(state[1]),
                           step.verb == ADD, -self.depth(step), number)
                    choices.append((key, after, state))
            key, entries, (faults, reached) = min(choices, key=lambda it: it[0])
            left.remove(key[-1])
            found.append(steps[key[-1]])
        return found

    def plain(self, steps):
        """Returns the steps in an order that makes no second copy: what is taken out first, at the first routers first,
        and then what is put in, at the last routers first."""
        outs, ins = ([it for it in steps if it.verb == verb] for verb in (REMOVE, ADD))
        return sorted(outs, key=self.depth) + sorted(ins, key=lambda it: -self.depth(it))

    def bare(self, has_device):
        """Returns the routers with an entry for every source that are without their own of the flow for a while."""
        steps = steps_between(self.task.entries, self.new, has_device)
        return {it.router for it in steps if it.is_whole or it.router not in self.task.entries} & self.task.every_source

    def sender_before(self, entries, bare):
        """Returns the first outgoing vif by which a copy comes to a LAN of these routers from another one, or None."""
        on = self.task.domain.on
        for lan, it in fly(self.task, entries).reach.items():
            if it.router is not None and any(router in bare and router != it.router for router, _ in on[lan]):
                return it.router, it.vif
        return None

    def stopped(self, has_device):
        """Returns steps that first stop the flow before the routers with an entry for every source whose own one goes
        or comes, and let it go on at the end: so it comes to none of them meanwhile."""
        old, new, bare = dict(self.task.entries), dict(self.new), self.bare(has_device)
        stops, starts = [], []
        for entries, steps, verb in ((old, stops, REMOVE), (new, starts, ADD)):
            sender = self.sender_before(entries, bare)
            while sender:
                router, vif = sender
                steps.append(Step(router, verb, entries[router][0], (vif,)))
                entries[router] = without(entries[router], vif)
                sender = self.sender_before(entries, bare)
        return stops + self.plain(steps_between(old, new, has_device)) + starts

    def orders(self, has_device):
        """Yields the steps in one order after the other."""
        steps = steps_between(self.task.entries, self.new, has_device)
        yield self.greedy(steps)
        yield self.plain(steps)
        yield self.stopped(has_device)
        yield self.greedy(steps_between(self.task.entries, self.new, lambda *_: True))

    def checked(self, steps):
        """Returns the steps, merged, each with its router's entry then, with the LANs that lost the stream, and with
        whether it makes a fault."""
        entries, steps = self.task.entries, with_rules(self.task.entries, merged(steps))
        faults, start = self.state(entries)
        for step in steps:
            step.is_new = step.router not in entries or entries[step.router][0] != step.vif
            entries = entries_after(entries, step, self.new)
            step.entry = entries.get(step.router)
            before, (faults, reached) = faults, self.state(entries)
            step.is_worse = bool(faults - before)
            step.gone = tuple(it for it in self.task.wanted if it in start - reached)
        return steps


def merged(steps):
    """Returns the steps, those that follow each other at one entry with the same verb as one."""
    found = []
    for step in steps:
        last = found[-1] if found else None
        if last and (last.router, last.verb, last.vif) == (step.router, step.verb, step.vif) and last.outgoing \
                and step.outgoing:
            last.outgoing = tuple(sorted({*last.outgoing, *step.outgoing}))
        else:
            found.append(dataclasses.replace(step))
    return found


def with_rules(entries, steps):
    """Returns the steps, and before each that gives an entry which forwards to none another incoming interface one that
    adds it as it is. smcroute makes such entries on demand and has no rule for them: then it removes none of them, and
    an entry that takes the place of one goes with it in the next flush in which no packets came."""
    found, without_rule = [], {router: vif for router, (vif, outgoing) in entries.items() if not outgoing}
    for step in steps:
        if step.vif != without_rule.get(step.router, step.vif):
            step.in_place_of = without_rule.pop(step.router)
            found.append(Step(step.router, ADD, step.in_place_of, ()))
        found.append(step)
    return found


def steps_to(task, new, has_device):
    """Returns the steps that lead to new entries, in the first order in which none makes a loop, a duplicate or a
    stray; in the first one, where all do."""
    order, first = Order(task, new), None
    for steps in order.orders(has_device):
        found = order.checked(steps)
        if not any(it.is_worse for it in found):
            return found
        first = first or found
    return first
