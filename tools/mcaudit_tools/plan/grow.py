"""Entries by which a flow is right, grown from those that are there: what makes second copies and strays goes, then one
path after the other comes, and at last each change goes that isn't needed."""
from mcaudit_tools.plan.back import back_to
from mcaudit_tools.plan.differences import changes, taken_back
from mcaudit_tools.plan.flight import fly, is_right, missed
from mcaudit_tools.plan.paths import path_to
from mcaudit_tools.plan.task import NoPlan, without

ODDS = 0.4  # with which the first sender onto a LAN goes and not the second
ONE_TARGET = 0.5  # with which a path leads to a LAN that is picked and not to the nearest one


class Growing:
    """Entries as they grow."""

    def __init__(self, task, pick=None, is_far=False):
        """Takes what picks at random where there is a choice, and whether the farthest LAN comes first."""
        self.task, self.pick, self.is_far = task, pick, is_far
        self.entries, self.pins = dict(task.entries), set()  # pins: what paths that were taken forward by

    def cut(self, router, vif):
        """Takes an outgoing vif out."""
        self.entries[router] = without(self.entries[router], vif)

    def settle(self):
        """Takes out what makes second copies and strays; what a path that was taken needs stays. Returns the flight
        then."""
        while True:
            flight = fly(self.task, self.entries)
            if flight.strays:
                for router, vif in flight.strays:
                    self.cut(router, vif)
            elif flight.seconds:
                for router, vif in self.second_senders(flight):
                    self.cut(router, vif)
            elif flight.opens:
                self.close(flight)
            else:
                return flight

    def second_senders(self, flight):
        """Returns the outgoing vifs that go, since they make second copies: all second ones, or one that was first."""
        found = []
        for lan, router, vif in flight.seconds:
            first = flight.reach[lan]
            can_go = first.router is not None and (first.router, first.vif) not in self.pins
            if (router, vif) in self.pins:
                if not can_go:
                    raise NoPlan("two paths cross", lan)
                return [(first.router, first.vif)]
            if can_go and self.pick and self.pick.random() < ODDS:
                return [(first.router, first.vif)]
            found.append((router, vif))
        return found

    def close(self, flight):
        """Gives a router with an entry for every source one of the flow, or keeps copies from it."""
        router, vif, lan = flight.opens[0]
        if router in self.task.use:
            self.entries[router] = (vif, {})
            return
        first = flight.reach[lan]
        if first.router is None or (first.router, first.vif) in self.pins:
            raise NoPlan("open", lan, router)
        self.cut(first.router, first.vif)

    def path(self, reach, targets):
        """Returns the hops of a path to one of the targets, or None."""
        hops = None
        if not self.is_far and not any(it in reach for it in targets):
            hops = back_to(self.task, self.entries, reach, self.pins, targets)
        return hops or path_to(self.task, self.entries, reach, self.pins, targets, self.task.ttl, self.is_far)

    def take(self, hops):
        """Makes the entries that a path needs."""
        for router, vif, to_vif in hops:
            entry = self.entries.get(router)
            outgoing = dict(entry[1]) if entry else {}
            if entry and entry[0] != vif:
                outgoing.pop(vif, None)
            outgoing.setdefault(to_vif, self.task.threshold(router, to_vif))
            self.entries[router] = (vif, outgoing)
            self.pins.add((router, to_vif))

    def grow(self):
        """Returns entries by which the flow is right."""
        for _ in range(4 * len(self.task.domain.on) + 8):
            flight = self.settle()
            targets = missed(self.task, flight)
            if not targets:
                return self.entries
            if self.pick and self.pick.random() < ONE_TARGET:
                targets = [self.pick.choice(targets)]
            hops = self.path(flight.reach, targets)
            if not hops:
                raise NoPlan("no path", targets[0])
            self.take(hops)
        raise NoPlan("no end", self.task.lan)


def pruned(task, entries):
    """Returns the entries without each change that isn't needed for the flow to be right."""
    count, is_shorter = len(changes(task.entries, entries)), True
    while is_shorter:
        is_shorter = False
        for change in changes(task.entries, entries):
            less = taken_back(task, entries, change)
            less_count = len(changes(task.entries, less))
            if less_count < count and is_right(task, fly(task, less)):
                entries, count, is_shorter = less, less_count, True
                break
    return entries
