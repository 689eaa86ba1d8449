"""Groups that hosts ask for and that no flow of the draft answers: of the lists of reports that lie in the site, and of
the rows of every source."""
import dataclasses
import ipaddress
import os

from mcaudit_tools import igmp
from mcaudit_tools.common import Failed, from_hex, is_name
from mcaudit_tools.files import read_regular
from mcaudit_tools.fold import Filter
from mcaudit_tools.heard import MOST_BYTES, MOST_MESSAGES

PREFIX = "igmp-"  # of a list of reports, igmp-LAN
ALL = Filter(True, frozenset())


@dataclasses.dataclass
class Asked:
    """A group that is asked for, of a source or of any, and where."""

    group: ipaddress.IPv4Address
    source: "ipaddress.IPv4Address | None"
    lans: list = dataclasses.field(default_factory=list)
    routers: list = dataclasses.field(default_factory=list)  # with a row of every source
    is_given: bool = False  # by the list of flows, without a source


def messages_of(path):
    """Returns the messages of a list."""
    lines = read_regular(path, MOST_BYTES).split(b"\n")
    messages = [from_hex(it) for it in lines[:-1]]
    if lines[-1] or len(messages) > MOST_MESSAGES or not all(map(igmp.is_whole, messages)):
        raise ValueError
    return messages


def wants_of(messages):
    """Returns what is wanted of each group that routers forward."""
    found = {}
    for message in messages:
        if message[0] == igmp.REPORT_3:
            for it in igmp.records_of(message)[0]:
                if it.kind in igmp.CURRENT:
                    found[it.group] = found.get(it.group, Filter(False, frozenset())).changed(it)
        elif message[0] in igmp.REPORTS:
            found[message[4:8]] = ALL
    return {group: it for group, it in found.items() if igmp.is_forwarded(group)}


def read_lists(draft, folder):
    """Yields each LAN that has a list in the folder, with what is wanted there."""
    for name in sorted(os.listdir(folder)) if os.path.isdir(folder) else ():
        lan = name.removeprefix(PREFIX) if name.startswith(PREFIX) else ""
        if not is_name(lan):
            continue
        try:
            yield lan, wants_of(messages_of(os.path.join(folder, name)))
        except (Failed, ValueError):
            draft.doubts.append(f"{name} is not a valid list of reports: see what mcaudit says of it")


def unanswered(wanted, sources, networks):
    """Returns of which sources a LAN asks for a group that no flow of these sources answers, where None is any; those
    of its own networks it has without a router."""
    if wanted.is_exclude:
        return [] if sources - wanted.sources else [None]
    others = (ipaddress.IPv4Address(it) for it in sorted(wanted.sources - sources) if igmp.is_host(it))
    return [it for it in others if not any(it in network for network in networks)]


def find_asked(draft, folder, services, known):
    """Gives the draft the groups that are asked for, and that no flow of its own answers or one that is known, beside
    those that the list of flows has without a source."""
    sources, found = {}, {(it.group, it.source): it for it in draft.asked}
    for source, group in [*((it.source, it.group) for it in draft.flows), *known]:
        sources.setdefault(igmp.address_of(str(group)), set()).add(igmp.address_of(str(source)))

    def asked(group, source):
        """Returns the group's place."""
        return found.setdefault((group, source), Asked(group, source))

    for lan, wants in read_lists(draft, folder):
        for group, wanted in wants.items():
            address = ipaddress.IPv4Address(group)
            if str(address) not in services:
                for source in unanswered(wanted, sources.get(group, set()), draft.networks.get(lan, ())):
                    asked(address, source).lans.append(lan)
    for router in draft.routers:
        for group in router.wildcards:
            if group.packed not in sources and str(group) not in services:
                asked(group, None).routers.append(router.name)
    draft.asked = [found[it] for it in sorted(found, key=lambda it: (it[0], it[1] is not None, it[1] or it[0]))]
