"""A search for entries with fewer changes, breadth first. At each fault it branches over changes of which every right
set of entries has one at least, so it misses none, and also shows below which number of changes there are none."""
from mcaudit_tools.plan.differences import Change, turned
from mcaudit_tools.plan.flight import fly, is_right

FEW = 2  # faults of a kind that are looked at


def senders_to(flight, lan):
    """Returns the outgoing vifs by which a copy came to a LAN."""
    found = []
    while flight.reach[lan].router is not None:
        reach = flight.reach[lan]
        found.append((reach.router, reach.vif))
        lan = reach.parent
    return found


class Branches:
    """The changes over which the search branches at some entries that aren't right."""

    def __init__(self, task, entries, flight):
        """Takes the entries and their flight."""
        self.task, self.entries, self.flight = task, entries, flight

    def ends(self, senders):
        """Returns the changes that end a path: one of its outgoing vifs goes, or a router on it takes the flow by
        another vif."""
        found = []
        for router, vif in dict.fromkeys(senders):
            found.append(Change(router, "out", vif))
            found += [Change(router, "in", it) for it in self.task.domain.placed[router]
                      if it != self.entries[router][0]]
        return found

    def lan_before(self, router):
        """Returns the LAN from which a router takes the flow."""
        return self.task.domain.placed[router][self.entries[router][0]]

    def choices(self):
        """Yields lists of changes, of each of which every right set of entries has one at least."""
        flight, task = self.flight, self.task
        for lan, router, vif in flight.seconds[:FEW]:
            yield self.ends([*senders_to(flight, lan), (router, vif), *senders_to(flight, self.lan_before(router))])
        for router, vif in flight.strays[:FEW]:
            yield self.ends([(router, vif), *senders_to(flight, self.lan_before(router))])
        for router, _, lan in flight.opens[:FEW]:
            made = [Change(router, "in", it) for it in task.domain.placed[router]] if router in task.use else []
            yield self.ends(senders_to(flight, lan)) + made
        for lan in task.wanted:
            is_low = lan in flight.reach and flight.reach[lan].need > task.ttl
            if is_low or lan not in flight.reach:
                onward = None if is_low else self.onward()
                yield self.all_onward() if onward is None else onward
                return

    def onward(self):
        """Returns the changes by which a copy comes to a LAN that carries none; None where it may also come by a
        threshold that stops it on this path and not on another."""
        task, flight, found = self.task, self.flight, []
        for lan, reach in flight.reach.items():
            for router, vif in task.domain.on[lan]:
                if router in task.shut or (router, vif) == (reach.router, reach.vif):
                    continue
                entry = self.entries.get(router)
                new = [to_vif for to_vif, to in task.domain.placed[router].items()
                       if to_vif != vif and to not in flight.reach and to != task.lan and to not in task.banned]
                if entry and entry[0] == vif:
                    if any(it in entry[1] for it in new):
                        return None
                    found += [Change(router, "out", it) for it in new]
                elif new:
                    found.append(Change(router, "in", vif))
        return found

    def all_onward(self):
        """Returns all changes by which another copy comes from a LAN that is reached."""
        task, found = self.task, []
        for lan in self.flight.reach:
            for router, vif in task.domain.on[lan]:
                if router in task.shut:
                    continue
                entry = self.entries.get(router)
                if entry and entry[0] == vif:
                    found += [Change(router, "out", to_vif) for to_vif, to in task.domain.placed[router].items()
                              if to_vif not in entry[1] and to not in (lan, task.lan) and to not in task.banned]
                else:
                    found.append(Change(router, "in", vif))
        return found

    def fewest(self, changed):
        """Returns the shortest of the lists, without what was changed before."""
        turned_routers = {it.router for it in changed if it.kind == "in"}
        lists = [[it for it in of if it not in changed and (it.kind == "out" or it.router not in turned_routers)]
                 for of in self.choices()]
        return min(lists, key=len) if lists else []


def search(task, most, limit):
    """Looks for entries by which the flow is right with less than `most` changes, among so many sets of changes.
    Returns them or None, and the number of changes below which there are none."""
    level, seen, tried = [(frozenset(), task.entries, None)], set(), 0
    for depth in range(most):
        following = []
        for changed, before, last in level:
            tried += 1
            if tried > limit:
                return None, depth
            entries = turned(task, before, last) if last else before
            flight = fly(task, entries)
            if is_right(task, flight):
                return entries, depth
            if depth + 1 >= most:
                continue
            for change in Branches(task, entries, flight).fewest(changed):
                made = changed | {change}
                if made not in seen and (change.kind == "in" or change.router in entries):
                    seen.add(made)
                    following.append((made, entries, change))
        level = following
    return None, most
