"""Which routers a PIM daemon gives their entries: it takes away what a command changes there."""
import os

from mcaudit_tools.facts import PREFIX
from mcaudit_tools.files import read_regular
from mcaudit_tools.premises.reader import Facts
from mcaudit_tools.premises.rows import REGISTER, vifs_of

MOST_TABLE = 16 << 20
MOST_FACTS = 16 << 20
ANSWERS = "frr_igmp", "frr_neighbors"  # sections that a PIM daemon alone answers


def has_register_vif(folder, router):
    """Whether a router's vif table has PIM's register vif."""
    lines = read_regular(os.path.join(folder, f"vif-{router}"), MOST_TABLE, f"vif-{router}").split(b"\n")
    return any(it.flags & REGISTER for it in vifs_of(lines).values())


def is_named_by_facts(path):
    """Whether a router's facts name a PIM daemon: it answered what only such a one does."""
    if not os.path.isfile(path):
        return False
    facts = Facts(read_regular(path, MOST_FACTS))
    return any(it in facts.sections and facts.fault(it) is None and facts.text(it).lstrip().startswith("{")
               for it in ANSWERS)


def routers_of(copy, site, routers):
    """Returns those of the routers whose entries are a PIM daemon's: by their vif tables in the copy, and by what the
    site has of facts."""
    return {it for it in routers if has_register_vif(copy, it) or is_named_by_facts(os.path.join(site, PREFIX + it))}
