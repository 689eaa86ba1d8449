"""Reads the facts of a router, where a set has them."""
import os

from mcaudit_tools.common import Failed
from mcaudit_tools.facts import MOST_FILE
from mcaudit_tools.files import read_regular
from mcaudit_tools.told import MOST_LINES, UNREADABLE


def read_facts(folder, name):
    """Returns the facts of a file in the folder, and why there are none."""
    path = os.path.join(folder, name)
    if not os.path.lexists(path):
        return None, "not asked"
    # (a set without facts needs nothing of what takes them apart)
    from mcaudit_tools.premises.reader import Facts  # pylint: disable=import-outside-toplevel
    try:
        text = read_regular(path, MOST_FILE)
        return (Facts(text), None) if text.count(b"\n") <= MOST_LINES else (None, f"they have over {MOST_LINES} lines")
    except Failed as fault:
        return None, str(fault)
    except UNREADABLE as fault:
        return None, f"they can't be read ({type(fault).__name__})"
