"""The entries of a plan: grown in several orders, and then looked for with fewer changes."""
import random
import typing

from mcaudit_tools.plan.back import least_changes
from mcaudit_tools.plan.differences import changes
from mcaudit_tools.plan.flight import fly, is_right
from mcaudit_tools.plan.grow import Growing, pruned
from mcaudit_tools.plan.paths import Search
from mcaudit_tools.plan.search import search
from mcaudit_tools.plan.task import NoPlan

UNGROWN = 5  # changes below which is looked, where nothing could be grown
TRIES = (64, 12), (512, 3)  # up to so many flows, the orders in which entries are grown; of more it is one
SETS = 20000  # of changes that are tried for all flows together


class Found(typing.NamedTuple):
    """Entries by which a flow is right."""

    entries: dict
    number: int  # of changes
    least: int  # changes that every plan has


class Effort(typing.NamedTuple):
    """How long is looked for."""

    tries: int
    sets: int

    @classmethod
    def of(cls, flows, sets):
        """Returns it for so many flows, where so many sets of changes may be tried for one."""
        return cls(next((tries for most, tries in TRIES if flows <= most), 1), min(sets, SETS // max(flows, 1)))


def check_source(task):
    """Tells by NoPlan that a packet comes to a router that has an entry for every source alone, whatever changes."""
    if task.lan in task.banned:
        router = next(it for it, _ in task.domain.on[task.lan] if it in task.open - task.use)
        raise NoPlan("open", task.lan, router)


def check_paths(task):
    """Tells by NoPlan that some LAN has no path, whatever changes."""
    left = set(task.wanted) - {task.lan}
    for _, lan, _ in Search(task, task.entries, {}).ways(task.ttl):
        left.discard(lan)
        if not left:
            return
    if left:
        raise NoPlan("no path", next(it for it in task.wanted if it in left))


def grown(task, tries, least):
    """Returns the entries with the fewest changes of several that are grown, or None and why there are none."""
    best, count, fault = None, 0, None
    for number in range(tries):
        pick = random.Random(number) if number > 1 else None
        try:
            entries = pruned(task, Growing(task, pick, is_far=number == 1).grow())
        except NoPlan as why:
            if fault is None:
                check_paths(task)
            fault = fault or why
            continue
        made = len(changes(task.entries, entries))
        if is_right(task, fly(task, entries)) and (best is None or made < count):
            best, count = entries, made
        if best is not None and count <= least:
            break
    return best, count, fault


def find(task, effort):
    """Returns entries by which the flow is right, with few changes; or tells by NoPlan why there are none."""
    check_source(task)
    least = least_changes(task, fly(task, task.entries).reach)
    best, count, fault = grown(task, effort.tries, least)
    if best is not None and count <= least:
        return Found(best, count, count)
    fewer, shown = search(task, count if best is not None else UNGROWN, effort.sets)
    if fewer is not None:
        return Found(fewer, shown, shown)
    if best is None:
        raise fault or NoPlan("not found", task.lan)
    return Found(best, count, max(least, shown))
