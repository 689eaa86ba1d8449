"""How the entries of a flow differ: a change is an incoming vif that is set, or an outgoing one that comes or goes."""
import typing

from mcaudit_tools.plan.task import without


class Change(typing.NamedTuple):
    """One change of a router's entry."""

    router: str
    kind: str  # "in" or "out"
    vif: int


def changes(old, new):
    """Returns the changes that lead from entries to others."""
    found = []
    for router in sorted({*old, *new}):
        was, now = old.get(router), new.get(router)
        if was == now:
            continue
        if not was or was[0] != now[0]:
            found.append(Change(router, "in", now[0]))
        found += [Change(router, "out", vif) for vif in sorted((was[1] if was else {}).keys() ^ now[1].keys())]
    return found


def turned(task, entries, change):
    """Returns the entries with one change made."""
    entry, made = entries.get(change.router), dict(entries)
    if change.kind == "in":
        made[change.router] = (change.vif, dict(entry[1]) if entry else {})
    elif change.vif in entry[1]:
        made[change.router] = without(entry, change.vif)
    else:
        had = task.entries.get(change.router, (0, {}))[1]
        made[change.router] = (entry[0], {**entry[1],
                                          change.vif: had.get(change.vif) or task.threshold(change.router, change.vif)})
    return made


def taken_back(task, entries, change):
    """Returns the entries without one of the changes that made them."""
    if change.kind == "out":
        return turned(task, entries, change)
    made = dict(entries)
    if change.router in task.entries:
        made[change.router] = (task.entries[change.router][0], entries[change.router][1])
    elif not entries[change.router][1]:
        del made[change.router]
    return made
