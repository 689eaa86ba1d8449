"""Who on a LAN speaks as a multicast router: by PIM (RFC 7761), by queries, or as a member of routers' own groups. One
whose address belongs to no listed router forwards what the verdict knows nothing of.

Any host can say such things, so what is kept and told is bounded.
"""
from mcaudit_tools import igmp

PIM = 103  # the protocol in IPv4
ALL_PIM_ROUTERS = bytes([224, 0, 0, 13])
MESSAGES = {0: "PIM Hello", 3: "PIM Join/Prune", 5: "PIM Assert"}  # that only neighbours send
ROUTERS = {bytes([224, 0, 0, it]) for it in (2, 4, 13, 22, 106)}  # groups that routers alone are members of
NOBODY = bytes(4)
MOST_SPEAKERS, MOST_HARDWARE = 64, 4  # that are kept of a LAN, and of an address
MOST_WANTED = 4096  # groups that are kept
MOST_SHOWN = 8  # of many names


class Speakers:
    """Takes the frames of a capture."""

    def __init__(self):
        """Begins with nobody."""
        self.words, self.hardware, self.more = {}, {}, 0  # by address
        self.wanted = set()  # groups that routers forward, of all reports

    def take(self, frame):
        """Takes a frame."""
        header = igmp.header_of(frame.data) if frame.data and not any(frame.vlans) else None
        if header is None or header.is_dropped or header.is_fragment or len(frame.data) < header.total:
            return
        message = frame.data[header.length:header.total]
        word = None
        if header.protocol == PIM:
            word = pim_word(header, message)
        elif header.protocol == igmp.IGMP and igmp.is_whole(message):
            word = self.igmp_word(message)
        if word and header.sender != NOBODY:  # of 0.0.0.0 a switch speaks
            self.add(header.sender, frame.hardware, word)

    def igmp_word(self, message):
        """Returns what an IGMP message says of its sender as a router, or None. Keeps the groups of a report."""
        if message[0] == igmp.QUERY:
            return "IGMP query"
        groups = {group for group, _ in igmp.groups_of(message)} if message[0] in igmp.REPORTS else set()
        if len(self.wanted) < MOST_WANTED:
            self.wanted.update(it for it in groups if it >= igmp.FIRST_FORWARDED)
        found = min(groups & ROUTERS, default=None)
        return found and f"member of {igmp.dotted(found)}"

    def add(self, address, hardware, word):
        """Keeps what an address says."""
        if address not in self.words and len(self.words) >= MOST_SPEAKERS:
            self.more += 1
            return
        self.words.setdefault(address, {})[word] = None
        known = self.hardware.setdefault(address, [])
        if hardware is not None and hardware not in known and len(known) < MOST_HARDWARE:
            known.append(hardware)

    def wanted_text(self):
        """Returns the groups that are asked for, as a sentence has them."""
        shown = [igmp.dotted(it) for it in sorted(self.wanted)[:MOST_SHOWN]]
        return " ".join(shown + [".."] * (len(self.wanted) > MOST_SHOWN))

    def strangers(self, listed, own=()):
        """Returns the addresses that aren't known to be a listed router's, nor this machine's own."""
        return [it for it in sorted(self.words) if it not in own and igmp.dotted(it) not in listed.addresses]

    def sentences(self, listed, own=()):
        """Yields who speaks that is no listed router."""
        for address in self.strangers(listed, own):
            hardware = " ".join(":".join(f"{byte:02x}" for byte in it) for it in self.hardware[address])
            yield (f"{igmp.dotted(address)}{f' ({hardware})' if hardware else ''} speaks as a multicast router "
                   f"({', '.join(self.words[address])}) and belongs to no listed router")
        if self.more:
            yield f"more than {MOST_SPEAKERS} addresses speak as multicast routers: packets of more {self.more}"


def pim_word(header, message):
    """Returns what a PIM message says of its sender, or None where it isn't one of a neighbour."""
    is_heeded = len(message) >= 4 and message[0] >> 4 == 2 and igmp.sum_of(message) == 0
    return MESSAGES.get(message[0] & 15) if is_heeded and header.target == ALL_PIM_ROUTERS else None
