"""Where the files of a set come from and how old they are: collected.json.

Version 2 is `{"files": {NAME: {"by": KIND, "of": ROUTER or null, "time": SECONDS, "unchecked": [..]}}, "version": 2}`;
version 1, which 0.2.0 wrote, has the time of each file alone.
"""
import json
import os
import re
import time

from mcaudit_tools.common import Failed
from mcaudit_tools.files import read_json

FILE = "collected.json"
MOST_BYTES = 16 << 20
TABLES = "vif-", "cache-", "address-", "route-"
MOST_SECONDS = 1 << 40
OLD_TIME = r"\d{4}-\d\d-\d\dT\d\d:\d\d:\d\dZ"  # as version 1 has it
AHEAD = 60  # seconds that a time may be later than now
CHANGED = 2  # seconds that a file may be newer than its time says
COLLECT, CAPTURE, STATIC, OPERATOR = "collect", "capture", "static", "operator"
UNKNOWN = "unknown"  # of lists of version 1, which doesn't say whether they were gathered or written by hand
DAEMON, BRIDGE = "daemon", "bridge"  # of lists that a router's routing daemon or its bridge believes
NOT_ASKED = "hosts"  # unchecked of a list that is empty because no router asks the hosts of its LAN


class Origin:
    """Where a file comes from: what made it, on which router, when, and what could not be checked of it."""

    def __init__(self, by, of, time, unchecked=(), is_timed=True):
        """Takes all of it, and whether the file was given that time."""
        self.by, self.of, self.time, self.unchecked, self.is_timed = by, of, time, list(unchecked), is_timed


class Unknown(Failed):
    """A collected.json that says nothing of use."""


def origin_of(value):
    """Reads an origin of version 2."""
    by, of, when, unchecked = value["by"], value["of"], value["time"], value.get("unchecked", [])
    if not isinstance(by, str) or not (of is None or isinstance(of, str)):
        raise ValueError
    if not isinstance(when, int) or isinstance(when, bool) or not 0 <= when <= MOST_SECONDS:
        raise ValueError
    if not isinstance(unchecked, list) or not all(isinstance(it, str) for it in unchecked):
        raise ValueError
    return Origin(by, of, when, unchecked)


def old_origin(name, text):
    """Returns what version 1 says of a file."""
    import calendar  # (for what 0.2.0 wrote alone)  pylint: disable=import-outside-toplevel
    when = calendar.timegm(time.strptime(text, "%Y-%m-%dT%H:%M:%SZ"))
    prefix = next((it for it in TABLES if name.startswith(it)), None)
    by = COLLECT if prefix else UNKNOWN if name.startswith("igmp-") else OPERATOR
    return Origin(by, name[len(prefix):] if prefix else None, when, is_timed=False)


def is_file_name(name):
    """Whether it names a file of a folder: a path that leads elsewhere is none."""
    return "/" not in name and name not in ("", ".", "..")


def parse(path):
    """Reads a collected.json."""
    try:
        found = read_json(path, MOST_BYTES)
        if found["version"] not in (1, 2) or isinstance(found["version"], bool):
            raise Unknown("it is of a version that is not known")
        if not all(map(is_file_name, found["files"])):
            raise ValueError
        if found["version"] == 1:
            return {name: old_origin(name, it) for name, it in found["files"].items()
                    if isinstance(it, str) and re.fullmatch(OLD_TIME, it, re.ASCII)}
        return {name: origin_of(it) for name, it in found["files"].items()}
    except (ValueError, KeyError, TypeError, AttributeError, RecursionError, OverflowError) as fault:
        raise Unknown("it is none that a tool wrote") from fault


def read(folder, named=None):
    """Returns what a folder's collected.json says of its files: nothing, where there is none. The folder has this
    name."""
    path = os.path.join(folder, FILE)
    try:
        return parse(path) if os.path.lexists(path) else {}
    except Unknown as fault:
        raise Unknown(f"{os.path.join(named or folder, FILE)}: {fault}") from fault


def is_copy(folder, known):
    """Whether the folder is a copy whose files have the times of copying: all that are told of are newer than told, but
    for those that are told of a time too far ahead, and those that are older than told. A copy is as old as what it
    copies."""
    paths = [(os.path.join(folder, name), origin) for name, origin in known.items() if not is_ahead(origin)]
    later = [os.stat(path).st_mtime - origin.time for path, origin in paths if os.path.isfile(path)]
    newer = [it > CHANGED for it in later if it >= -CHANGED]
    return bool(newer) and all(newer)


def is_ahead(origin):
    """Whether it is told of a time too far ahead."""
    return origin.time > time.time() + AHEAD


def current(path, origin, is_copied):
    """Returns the origin of the file as it is now: where it is newer than told, somebody changed it by hand, unless the
    whole folder is a copy; and where it is older, somebody put another one in its place."""
    written = os.stat(path).st_mtime
    later = 0 if origin is None else written - origin.time
    is_changed = origin is None or later > CHANGED and not is_copied
    is_replaced = later < -CHANGED and origin.is_timed and not is_ahead(origin)
    return Origin(OPERATOR, None, int(written)) if is_changed or is_replaced else origin


def keep_time(path, origin):
    """Gives a file the time that is told of it, so that whoever changes it by hand is seen. A link has no such time."""
    if not os.path.islink(path):
        os.utime(path, (origin.time, origin.time))


def text_of(origins):
    """Returns the text of a collected.json."""
    files = {name: {"by": it.by, "of": it.of, "time": it.time, **({"unchecked": it.unchecked} if it.unchecked else {})}
             for name, it in sorted(origins.items())}
    return json.dumps({"files": files, "version": 2}, sort_keys=True, separators=(",", ":")).encode() + b"\n"
