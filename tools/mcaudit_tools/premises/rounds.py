"""The readings that sets have of their routers, and what their counters say."""
import os
import time

from mcaudit_tools import origins
from mcaudit_tools.ages import age_of, age_text
from mcaudit_tools.answers import MOST_TABLE
from mcaudit_tools.common import Failed
from mcaudit_tools.facts import PREFIX
from mcaudit_tools.files import read_regular
from mcaudit_tools.premises.counters import ROUNDS, Counters
from mcaudit_tools.premises.read import read_facts
from mcaudit_tools.premises.readings import SECTIONS, reading_of
from mcaudit_tools.premises.rows import Wanted
from mcaudit_tools.premises.windows import Windows, loss_text

TABLES = {"ip_mr_vif": "vif-", "ip_mr_cache": "cache-"}


def readings_in(folder, routers, wanted, since):
    """Returns the readings of the routers in a set whose tables were read since then."""
    known = origins.read(folder)
    return {it: reading_in(folder, it, wanted, known.get(PREFIX + it), since) for it in routers}


def reading_in(folder, router, wanted, known, since):
    """Returns the reading of a router in a set. Its facts, whose origin may be None, are of that reading where they
    were asked for with it."""
    sections = {name: read_regular(os.path.join(folder, prefix + router), MOST_TABLE).split(b"\n")
                for name, prefix in TABLES.items()}
    boot = None
    if known is not None and known.by == origins.COLLECT and known.time >= since:
        facts, _ = read_facts(folder, PREFIX + router)
        if facts is not None and not facts.failed() and all(facts.fault(it) is None for it in SECTIONS):
            sections, boot = {it: facts.sections[it] for it in SECTIONS}, facts.boot
    return reading_of(sections, wanted, boot)


def compared(answer, found):
    """Returns what the counters of these sets say, each a folder and the times of its readings."""
    wanted = Wanted(answer.trees)
    try:
        rounds = [readings_in(folder, answer.routers, wanted, times[0]) for folder, times in found]
    except (Failed, OSError) as fault:
        return Counters(reason=f"a set before can't be read: {fault}")
    times = [it for _, it in found]
    apart = [after[0] - before[1] for before, after in zip(times, times[1:])]
    is_close = apart[0] + apart[2] >= apart[1]
    counters = Windows(answer, rounds, is_close).judge()
    losses = loss_text(times) if is_close else "which are too far apart to show what is lost"
    age = age_text(age_of(times[0][0], time.time()))
    counters.window = f"by the last {ROUNDS} sets, the first of them {age} old, {losses}"
    return counters
