"""The topology of a site: its routers, LANs and interfaces, whose names are checked before anything is made of them."""
import contextlib
import os
import re
import signal

from mcaudit_tools.common import Failed, is_name
from mcaudit_tools.files import read_regular

MOST_BYTES = 16 << 20
MOST_DEVICE = 15  # bytes of the name of a device
DEVICE = re.compile(r"[^\s/:\x00-\x20\x7f-\x9f]+")  # as the kernel has it, but for what commands a terminal
READING = 10  # seconds that the reading of a topology may take


class NoReader(Failed):
    """This Python reads no TOML."""

    sentence = "a topology is read by python3 of 3.11 or later"


class Topology:
    """What a topology lists, in its order."""

    def __init__(self, routers, lans, interfaces):
        """Takes its routers, its LANs, and its interfaces: (LAN, router, device) each."""
        self.routers, self.lans, self.interfaces = routers, lans, interfaces

    def devices_of(self, router):
        """Returns the devices of a router that are on listed LANs."""
        return list(dict.fromkeys(device for _, it, device in self.interfaces if it == router))


def read_toml(folder, named):
    """Returns the topology of a folder as a table; what is wrong with it is told by the name of the site."""
    path, named = os.path.join(folder, "topology"), os.path.join(named, "topology")
    try:
        import tomllib  # type: ignore  # pylint: disable=import-outside-toplevel
    except ImportError as fault:
        raise NoReader from fault
    data = read_regular(path, MOST_BYTES, named)
    try:
        with limited(READING, f"{named} can't be read: that takes more than {READING} s"):
            return tomllib.loads(data.decode())
    except RecursionError as fault:
        raise Failed(f"{named} can't be read: it is nested too deep") from fault
    except ValueError as fault:  # of UTF-8, of TOML, or a number of too many digits
        raise Failed(f"{named} can't be read: {fault}") from fault


@contextlib.contextmanager
def limited(seconds, sentence):
    """Fails with the sentence where what is done here takes more seconds. It is done in the main thread."""
    def fail(*_):
        """Ends it."""
        raise Failed(sentence)
    before = signal.signal(signal.SIGALRM, fail)
    signal.setitimer(signal.ITIMER_REAL, seconds)
    try:
        yield
    finally:
        signal.setitimer(signal.ITIMER_REAL, 0)
        signal.signal(signal.SIGALRM, before)


def tables_of(path, topology, key):
    """Returns the list of tables that the topology has under the key."""
    found = topology.get(key, [])
    if not isinstance(found, list) or not all(isinstance(it, dict) for it in found):
        raise Failed(f"{path}: {key} is not a list of tables")
    return found


def checked_name(path, kind, name):
    """Returns the name, where mcaudit would take it, or of a device the kernel."""
    is_device = isinstance(name, str) and DEVICE.fullmatch(name) and len(os.fsencode(name)) <= MOST_DEVICE
    if not (is_device if kind == "device" else is_name(name)):
        raise Failed(f"{path}: {name!r} is not a valid name of a {kind}")
    return name


def read_topology(folder, named):
    """Reads the topology of a folder, which is that of the site of this name."""
    topology, path = read_toml(folder, named), os.path.join(named, "topology")
    lans = topology.get("lans", [])
    if not isinstance(lans, list):
        raise Failed(f"{path}: lans is not a list")
    interfaces = [tuple(checked_name(path, kind, it.get(kind.lower())) for kind in ("LAN", "router", "device"))
                  for it in tables_of(path, topology, "interface")]
    return Topology(router_names(path, topology), [checked_name(path, "LAN", it) for it in lans], interfaces)


def check_lans(topology, options):
    """Fails where one of the options names a LAN that the topology doesn't have."""
    for option, names in options.items():
        for name in names or ():
            if name not in topology.lans:
                raise Failed(f"{option}: the topology has no LAN {name}", 5)


def router_names(path, topology):
    """Returns the names of the routers that a topology lists."""
    return [checked_name(path, "router", it.get("name")) for it in tables_of(path, topology, "router")]


def read_routers(folder, named):
    """Returns the names of the routers that a folder's topology lists, whatever else it has."""
    return router_names(os.path.join(named, "topology"), read_toml(folder, named))
