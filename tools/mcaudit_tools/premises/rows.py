"""Rows and vifs of a router's tables, as far as flows want them. The rows of all routers are kept as plain numbers,
since there may be a million of them, and some readings of each."""
import array
import ipaddress
import re
import typing

NOTHING = -1  # in the place of a vif: there is no row
VIF = re.compile(rb"\s*(\d{1,5})\s+(\S{1,15})" + rb"\s+(\d{1,20})" * 4 + rb"\s+([0-9A-Fa-f]{1,8})" * 3 + rb"\s*")
ROW = re.compile(rb"\S+\s+\S+\s+(\d{1,4})" + rb"\s+(\d{1,20})" * 3 + rb"((?:\s+\d{1,4}:\s*\d{1,3})*)\s*")
OUTGOING = re.compile(rb"(\d+):\s*(\d+)")
TUNNEL, REGISTER, USES_INDEX = 1, 4, 8  # in the flags of a vif


class Vif(typing.NamedTuple):
    """A line of the vif table."""

    device: str
    packets_in: int
    packets_out: int
    flags: int
    local: int

    @property
    def is_register(self):
        """Whether it is a tunnel or PIM's register vif."""
        return bool(self.flags & (TUNNEL | REGISTER))

    @property
    def index(self):
        """The interface index that the vif is of, or None where it was made by an address."""
        return self.local if self.flags & USES_INDEX else None


class Row(typing.NamedTuple):
    """A resolved line of the cache."""

    vif: int
    packets: int
    octets: int
    strangers: int
    outgoing: dict  # by vif, its threshold

    @property
    def taken(self):
        """The packets that came by the incoming vif."""
        return self.packets - self.strangers


class Rows:
    """The resolved rows that a router has of the wanted flows."""

    def __init__(self, wanted):
        """Takes the flows, of which there are no rows yet."""
        count = len(wanted.numbers)
        self.wanted, self.vifs, self.ends = wanted, array.array("h", [NOTHING]) * count, array.array("L", [0]) * count
        self.packets, self.octets, self.strangers = (array.array("Q", [0]) * count for _ in range(3))

    def put(self, number, line):
        """Takes the line of a flow, by its number, where it is that of a resolved row."""
        found = ROW.fullmatch(line)
        if found is None:
            return
        try:
            self.packets[number], self.octets[number], self.strangers[number] = map(int, found.group(2, 3, 4))
        except OverflowError:
            return
        self.vifs[number], self.ends[number] = int(found[1]), self.wanted.end_of(found[5])

    def get(self, flow):
        """Returns the row of a flow, or None."""
        number = self.wanted.numbers.get(flow)
        if number is None or self.vifs[number] == NOTHING:
            return None
        return Row(self.vifs[number], self.packets[number], self.octets[number], self.strangers[number],
                   self.wanted.outgoing[self.ends[number]])


class Wanted:
    """The flows whose rows are wanted, each with a number, by the words in which a cache has their group and source."""

    def __init__(self, flows):
        """Takes the source and the group of each, as dotted texts."""
        self.numbers = {flow: number for number, flow in enumerate(dict.fromkeys(flows))}
        self.keys = {order: {word_of(group, order) + b" " + word_of(source, order): number
                             for (source, group), number in self.numbers.items()} for order in ("little", "big")}
        self.outgoing, self.known = [], {}  # the different ends of rows, and their numbers by their text

    def end_of(self, text):
        """Returns the number of a row's outgoing vifs."""
        if text not in self.known:
            self.known[text] = len(self.outgoing)
            self.outgoing.append({int(vif): int(threshold) for vif, threshold in OUTGOING.findall(text)})
        return self.known[text]

    def kept(self, lines):
        """Yields those lines of a cache that are of one of the flows in either byte order."""
        little, big = self.keys.values()
        for line in lines:
            key = key_of(line)
            if key in little or key in big:
                yield line

    def rows(self, lines, order=None):
        """Returns the rows of the flows among the lines of a cache: in this byte order, or else in that in which more
        of the flows are there."""
        if order is None:
            lines = list(self.kept(lines))
            keys = [key_of(it) for it in lines]
            order = max(self.keys, key=lambda it: sum(map(self.keys[it].__contains__, keys)))
        found, numbers = Rows(self), self.keys[order]
        for line in lines:
            number = numbers.get(key_of(line))
            if number is not None:
                found.put(number, line)
        return found


def key_of(line):
    """Returns the group and the source of a cache's line, which a kernel prints in 8 digits each."""
    return line[:17] if line[8:9] == line[17:18] == b" " else b" ".join(line.split(None, 2)[:2])


def word_of(address, order):
    """Returns an address as the kernel prints it, as a number of its machine."""
    packed = ipaddress.IPv4Address(address).packed
    return b"%08X" % (int.from_bytes(packed, "little") if order == "little" else int.from_bytes(packed, "big"))


def vifs_of(lines):
    """Returns the lines of a vif table, by number."""
    found = {}
    for it in filter(None, map(VIF.fullmatch, lines)):
        device = it[2].decode("ascii", "replace")
        found[int(it[1])] = Vif(device, int(it[4]), int(it[6]), int(it[7], 16), int(it[8], 16))
    return found
