"""Changes of a domain as an operator writes them: one change is a sentence, WHO: WHAT, as one argument or on one
line of a file. Here a sentence is taken apart; whether a domain has what it names, tried.py sees.
"""
import dataclasses
import re
import sys
import typing

from mcaudit_tools import igmp
from mcaudit_tools.common import Failed, Wrong, is_name
from mcaudit_tools.files import read_regular

GRAMMAR = """A CHANGE is one argument, in quotes. -f FILE has one on each line, and comments: lines that begin with #,
and what follows # and a blank. DEVICE is what a router calls an interface, S a source, G a group, N a
number:
  ROUTER: add DEVICE S G DEVICE ... [ttl N]
      as smcroutectl: makes the entry that comes in by the first device, or adds outgoing devices to it; without
      `ttl N` with the threshold that other entries of the router have at the device, or else with 1
  ROUTER: add DEVICE S G             as smcroutectl: makes the entry without an outgoing device; one that has none
                                     is unchanged
  ROUTER: remove DEVICE S G DEVICE ...
      as smcroutectl: takes outgoing devices out of the entry, which stays
  ROUTER: remove DEVICE S G          as smcroutectl: the entry goes
  ROUTER: delete S G                 the entry goes, by whatever device it comes in
  ROUTER: threshold DEVICE S G N     the threshold of one outgoing device of one entry
  ROUTER: threshold DEVICE N         the same of each entry of the router, and of what is added later
  ROUTER: down                       the router forwards nothing
  ROUTER: down DEVICE                nothing passes by this device
  LAN: down                          nothing passes by any interface on this LAN
  LAN: join G [S]                    a host of it wants the group, from all sources or from S
  LAN: leave G [S]                   no host of it wants that any more
  S G: ttl N                         the flow's TTL in the topology
  S G: new ttl N                     one flow more in the topology
`router NAME: down` and `lan NAME: down` say which is meant where both have the name."""
MOST_BYTES = 1 << 20  # of a file of changes
MOST_CHANGES = 1 << 16
MOST_THRESHOLD, MOST_TTL = 254, 255  # a threshold of 255 forwards nothing, and the kernel doesn't print it
KINDS = "router", "lan"
STANDARD = "-"  # the name of standard input
COMMENT = re.compile(r"^[ \t]*#.*|[ \t]#[ \t].*")  # on a line of a file: a device may begin with #, too
OF_ROUTERS = "add", "remove", "delete", "threshold"
OF_LANS = "join", "leave"
OF_FLOWS = "ttl", "new"


@dataclasses.dataclass(frozen=True)
class Change:
    """One change: what is done, whose it is, and what it is done with."""

    text: str  # as it was written, for people
    verb: str  # add, remove, delete, threshold, down, join, leave, ttl or new
    who: "str | None" = None  # the router or the LAN; of ttl and new None
    kind: "str | None" = None  # router or lan, where that is given or follows from what is done
    device: "str | None" = None  # by which the entry comes in; of threshold the outgoing one; of down the one that is
    source: "str | None" = None
    group: "str | None" = None
    outgoing: "tuple[str, ...]" = ()
    number: "int | None" = None  # a threshold, or a time to live


def parse(text):
    """Takes a sentence apart. Fails where it is none of the grammar."""
    who, has_colon, what = text.partition(":")
    words = words_of(what)
    try:
        if not has_colon or not words:
            raise Wrong("a change is WHO: WHAT")
        return change_of(text.strip(" \t"), words_of(who), words)
    except Wrong as fault:
        raise Wrong(f"`{text.strip()}`: {fault}, see --help") from fault


def words_of(text):
    """Returns the words of a text: a device may have any letter but a space, of whatever alphabet."""
    return re.findall(r"[^ \t]+", text)


def change_of(text, who, words):
    """Returns the change of these words, of whom the words before the colon name."""
    verb, rest = words[0], words[1:]
    if len(who) == 2 and who[0] not in KINDS:
        return flow_change(text, who, words)
    kind, name = (who[0], who[1]) if len(who) == 2 else (None, who[0] if len(who) == 1 else "")
    if not is_name(name):
        raise Wrong("before the colon comes a router, a LAN, or a source and its group")
    verb_kind = "router" if verb in OF_ROUTERS or verb == "down" and rest else "lan" if verb in OF_LANS else None
    if verb not in READERS:
        raise Wrong(f"there is no `{verb}`")
    if None not in (kind, verb_kind) and kind != verb_kind:
        raise Wrong(f"it is a {'LAN' if verb_kind == 'lan' else 'router'} that can `{verb}`")
    return dataclasses.replace(READERS[verb](verb, rest), text=text, who=name, kind=kind or verb_kind)


def flow_change(text, flow, words):
    """Returns a change of a flow in the topology."""
    if words[0] not in OF_FLOWS or len(words) != (2 if words[0] == "ttl" else 3) or words[-2] != "ttl":
        raise Wrong("of a flow there are `ttl N` and `new ttl N`")
    return Change(text, words[0], source=source_of(flow[0]), group=group_of(flow[1]),
                  number=number_of(words[-1], MOST_TTL, "a TTL"))


def add_or_remove(verb, words):
    """Reads `DEVICE S G [DEVICE ...]`, and of add the threshold behind it."""
    if len(words) < 3:
        raise Wrong(f"it is `{verb} DEVICE S G`, and then the outgoing devices")
    outgoing, number = words[3:], None
    if verb == "add" and outgoing[-2:-1] == ["ttl"]:
        number = number_of(outgoing[-1], MOST_THRESHOLD, "a threshold")
        outgoing = outgoing[:-2]
        if not outgoing:
            raise Wrong("`ttl N` is of the outgoing devices before it, and there are none")
    for it in outgoing:
        if outgoing.count(it) > 1:
            raise Wrong(f"{it} is named twice")
    return Change("", verb, device=words[0], source=source_of(words[1]), group=group_of(words[2]),
                  outgoing=tuple(outgoing), number=number)


def delete(verb, words):
    """Reads `S G`."""
    if len(words) != 2:
        raise Wrong("it is `delete S G`")
    return Change("", verb, source=source_of(words[0]), group=group_of(words[1]))


def threshold(verb, words):
    """Reads `DEVICE N` or `DEVICE S G N`."""
    if len(words) not in (2, 4):
        raise Wrong("it is `threshold DEVICE N` or `threshold DEVICE S G N`")
    pair = (source_of(words[1]), group_of(words[2])) if len(words) == 4 else (None, None)
    return Change("", verb, device=words[0], source=pair[0], group=pair[1],
                  number=number_of(words[-1], MOST_THRESHOLD, "a threshold"))


def down(verb, words):
    """Reads nothing, or `DEVICE`."""
    if len(words) > 1:
        raise Wrong("it is `down` or `down DEVICE`")
    return Change("", verb, device=words[0] if words else None)


def join_or_leave(verb, words):
    """Reads `G [S]`."""
    if len(words) not in (1, 2):
        raise Wrong(f"it is `{verb} G` or `{verb} G S`")
    return Change("", verb, group=group_of(words[0]), source=source_of(words[1]) if words[1:] else None)


READERS: "dict[str, typing.Callable[[str, list[str]], Change]]" = {
    "add": add_or_remove, "remove": add_or_remove, "delete": delete, "threshold": threshold, "down": down,
    "join": join_or_leave, "leave": join_or_leave}


def source_of(word):
    """Returns the word, which has to be the address of a source."""
    if igmp.host_of(word) is None:
        raise Wrong(f"{word} is not a valid source address")
    return word


def group_of(word):
    """Returns the word, which has to be a group that routers forward."""
    if igmp.group_of(word) is None:
        raise Wrong(f"{word} is not a group that routers forward")
    return word


def number_of(word, most, what):
    """Returns the number of a word, from 1 on."""
    if not re.fullmatch(r"[0-9]{1,3}", word) or not 1 <= int(word) <= most:
        raise Wrong(f"{what} is 1 to {most}")
    return int(word)


def read_changes(words, files):
    """Returns the changes of these arguments and then those of these files, in their order."""
    found = [parse(it) for it in words]
    for path in files:
        for number, line in enumerate(lines_of(path), 1):
            text = COMMENT.sub("", line)
            if words_of(text):
                try:
                    found.append(parse(text))
                except Wrong as fault:
                    raise Wrong(f"{path} line {number}: {fault}") from fault
            if len(found) > MOST_CHANGES:
                raise Wrong(f"{path} line {number}: these are more than {MOST_CHANGES} changes")
    return found


def lines_of(path):
    """Returns the lines of a file, or of standard input, without their ends."""
    if path != STANDARD:
        data = read_regular(path, MOST_BYTES)
    elif sys.stdin is None:
        raise Failed("standard input is closed")
    else:
        data = sys.stdin.buffer.read(MOST_BYTES + 1)
        if len(data) > MOST_BYTES:
            raise Failed(f"standard input has more than {MOST_BYTES} bytes")
    return [it.removesuffix("\r") for it in data.decode("utf-8", "surrogateescape").split("\n")]
