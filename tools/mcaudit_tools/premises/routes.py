"""The routes back to sources, as a router prints them: by iproute2 all at once, by BusyBox's ip each for itself, or its
main table."""
import re
import typing

from mcaudit_tools.addresses import address_word

KINDS = "local", "broadcast", "unreachable", "blackhole", "prohibit", "throw"
FAILED = re.compile(r"Command failed .*:(\d{1,8})\s*")
WITHOUT_IPROUTE2 = "as far as is known without iproute2"
ALONE = "that is its main table alone, without ip"
UP, REJECTS = 1, 0x200  # in the flags of /proc/net/route
MASKS = {(1 << 32) - (1 << 32 - it): it for it in range(33)}
UNREADABLE = ValueError, KeyError, TypeError, AttributeError, IndexError


class Route(typing.NamedTuple):
    """The route back to a source: its kind, the devices of its next hops, and what isn't sure of it."""

    kind: str
    devices: list
    doubt: str = ""


def route_of_json(answer):
    """Returns the route that `ip -j route get fibmatch` has, with all its next hops, or None."""
    try:
        if not answer:
            return Route("none", [])
        route = answer[0]
        devices = [route["dev"]] if "dev" in route else [it["dev"] for it in route.get("nexthops", []) if "dev" in it]
        return Route(str(route.get("type", "unicast")), [str(it) for it in devices])
    except UNREADABLE:
        return None


def route_of_words(words):
    """Returns the route that `ip route get` prints, which is one of its next hops; nothing is printed where there is
    none."""
    kind = "none" if not words else words[0] if words[0] in KINDS else "unicast"
    return Route(kind, [after for it, after in zip(words, words[1:]) if it == "dev"],
                 WITHOUT_IPROUTE2 if kind == "unicast" else "")


def routes_of(lines, json_lists):
    """Returns the route back to each source that was asked for, by the source. The function reads a line in which lists
    of JSON follow each other."""
    found, batch, failed, answers = {}, [], set(), []
    for line in lines:
        kind, *words = line.split()
        if kind == "get" and words:
            found[words[0]] = route_of_words(words[1:])
        elif kind == "source" and words:
            batch.append(words[0])
        elif line.startswith("["):
            answers += json_lists(line)
        elif FAILED.fullmatch(line):
            failed.add(int(line.rpartition(":")[2]))
    there = [it for number, it in enumerate(batch, 1) if number not in failed]
    if len(there) == len(answers):
        found.update({source: route_of_json(it) for source, it in zip(there, answers)})
        found.update({it: Route("none", []) for number, it in enumerate(batch, 1) if number in failed})
    return {source: it for source, it in found.items() if it is not None}


class MainTable:
    """The routes of /proc/net/route: of a network of more next hops it has the first, and there may be other tables."""

    def __init__(self, lines, order):
        """Takes the lines, and the router's byte order."""
        self.networks = {}  # by mask, longest first, and network: metric, device and flags of the best route
        for words in map(str.split, lines[1:]):
            try:
                network, mask = (int(address_word(words[it].encode(), order)) for it in (1, 7))
                best = int(words[6][:10]), words[0], int(words[3][:8], 16)
            except UNREADABLE:
                continue
            if mask in MASKS and best[2] & UP:
                known = self.networks.setdefault(mask, {})
                known[network] = min(best, known.get(network, best))
        self.networks = dict(sorted(self.networks.items(), reverse=True))

    def route_back(self, source):
        """Returns the route to an address, which is a number; None where nothing shows it."""
        for mask, known in self.networks.items():
            if source & mask in known:
                _, device, flags = known[source & mask]
                is_ended = flags & REJECTS or device == "*"
                return Route("unreachable", [], ALONE) if is_ended else Route("unicast", [device], ALONE)
        return Route("none", [], ALONE) if self.networks else None
