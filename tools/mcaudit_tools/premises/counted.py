"""The counters of the last sets, as four rounds: what mcaudit-collect reads anyway says whether packets flow."""
import os

from mcaudit_tools import origins
from mcaudit_tools.common import Failed, is_set_name
from mcaudit_tools.facts import PREFIX
from mcaudit_tools.files import read_json
from mcaudit_tools.premises.counters import ROUNDS, Counters

MOST_SETS = 32  # that are looked into
MOST_STATE = 1 << 20  # bytes of what a monitor keeps
TABLES = "vif-", "cache-"  # of a router, before its name


def names_before(site, current):
    """Returns the names of the sets before the current one, the oldest first: in the order in which a monitor met them,
    whatever the clock said, and else of their times."""
    folder, name = os.path.split(current)
    there = {it for it in os.listdir(folder) if is_set_name(it)}
    try:
        order = [it for it in read_json(f"{site}.monitor.json", MOST_STATE)["sets"] if it in there]
    except (Failed, ValueError, KeyError, TypeError, RecursionError):
        order = []
    order += sorted(there - set(order), key=lambda it: (it == name, it))
    return order[:order.index(name)][-MOST_SETS:] if name in order else []


def times_of(folder, routers):
    """Returns when the first and the last of the routers' tables of a set were read; None where one of them was not
    read for it, or was changed since."""
    try:
        known = origins.read(folder)
        is_copied, times = origins.is_copy(folder, known), []
        for name in (prefix + router for router in routers for prefix in TABLES):
            origin = origins.current(os.path.join(folder, name), known.get(name), is_copied)
            if origin.by != origins.COLLECT:
                return None
            times.append(origin.time)
        asked = [known[it].time for it in (PREFIX + router for router in routers) if it in known]
        return (min(times), max(times + asked)) if times else None
    except (Failed, OSError):
        return None


def chosen(site, current, routers):
    """Returns the last sets that are rounds, each read after the one before, with their times."""
    found = []
    for name in [os.path.basename(current), *reversed(names_before(site, current))]:
        folder = os.path.join(os.path.dirname(current), name)
        first, last = times_of(folder, routers) or (None, None)
        if last is not None and (not found or last < found[0][1][0]):
            found.insert(0, (folder, (first, last)))
        if len(found) == ROUNDS or not found:
            break
    return found


def of_sets(answer, site, current):
    """Returns what the counters of the last four sets say."""
    if not os.path.islink(site) or os.path.dirname(current) != os.path.realpath(f"{site}.sets"):
        return Counters(reason=f"{site} is not a link to a set, so there are no sets before it")
    found = chosen(site, current, answer.routers)
    if len(found) < ROUNDS:
        return Counters(reason=f"{len(found)} of {ROUNDS} sets, each read after the one before")
    # (where there are no such sets, nothing of what compares readings is needed)
    from mcaudit_tools.premises import rounds  # pylint: disable=import-outside-toplevel
    return rounds.compared(answer, found)
