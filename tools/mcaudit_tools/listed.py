"""The addresses of the listed routers: who speaks as a multicast router and has none of them is a stranger."""
import ipaddress
import os

from mcaudit_tools import igmp
from mcaudit_tools.addresses import told_addresses
from mcaudit_tools.common import Failed
from mcaudit_tools.facts import PREFIX
from mcaudit_tools.files import read_regular
from mcaudit_tools.premises.read import read_facts
from mcaudit_tools.speakers import MOST_SHOWN
from mcaudit_tools.told import UNREADABLE, is_shallow

MOST_TABLE = 16 << 20  # bytes of what a router says of its addresses


class Listed:
    """The addresses of the listed routers, as a folder's facts have them, and of which routers they aren't known."""

    def __init__(self, folder, routers):
        """Reads the addresses."""
        self.addresses, self.missing = set(), []
        for router in routers:
            found = addresses_of(folder, router)
            self.addresses |= found
            if not found:
                self.missing.append(router)

    def sentence(self, speaking):
        """Returns who speaks on which LANs, where it isn't known whether they are listed routers."""
        found = {}
        for lan, speakers, own in speaking:
            for address in speakers.strangers(self, own):
                found.setdefault(address, []).append(lan)
        shown = [f"{igmp.dotted(it)} on {' '.join(lans[:MOST_SHOWN])}" for it, lans in sorted(found.items())]
        more = [".."] if len(shown) > MOST_SHOWN else []
        names = " ".join(self.missing[:MOST_SHOWN]) + (" .." if len(self.missing) > MOST_SHOWN else "")
        return (f"whether these are listed routers isn't known without the addresses of {names} (mcaudit-collect "
                f"--facts): {', '.join(shown[:MOST_SHOWN] + more)}") if shown and self.missing else ""


def addresses_of(folder, router):
    """Returns the addresses of a router, as its facts or what else a folder has of it say; none where they don't."""
    facts, _ = read_facts(folder, PREFIX + router)
    if facts is not None and facts.own_addresses:
        return facts.own_addresses
    try:
        text = read_regular(os.path.join(folder, f"address-{router}"), MOST_TABLE).decode("ascii", "replace")
        found = told_addresses(text) if is_shallow(text) else []
        return {str(it.local) for _, it in found if it is not None and isinstance(it.local, ipaddress.IPv4Address)}
    except (Failed, *UNREADABLE):
        return set()
