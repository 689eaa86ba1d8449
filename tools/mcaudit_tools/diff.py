"""mcaudit-diff: tells what changed between two audits of a domain, flow by flow.

An audit is a folder, which `mcaudit audit --json --unlisted` judges, or a file of what that printed. Ways are
compared by LANs, routers and devices: the numbers of vifs change as a routing daemon starts anew.
"""
import ipaddress
import json
import os
import sys

from mcaudit_tools import audit as audits
from mcaudit_tools.common import Failed, Parser, Refused, find_tool, names_change, say
from mcaudit_tools.files import printing
from mcaudit_tools.wants import ANY, Wants, changes_of_wants

NO_FAULT = "no fault known"  # of a flow without a fault, where routers are excluded
UNKNOWN = "unknown: "  # before what is found of a flow that isn't known to be wrong
ABOUT = """Prints what changed from OLD to NEW, a line each: first new and cleared faults, then flows that are listed
now or no longer, the LANs that a flow reaches and who forwards onto them, how many LANs carry a copy, which LANs want
the flow, the (S,G) in the caches that belong to no listed flow, and what hosts ask for and no flow answers.

OLD and NEW are folders, which are audited, or files of what `mcaudit audit --json --unlisted` printed."""
MORE = """Statuses: 0 nothing changed, 1 something did, 2 OLD or NEW is refused, 3 a read or a write failed, 5 usage
error.

Examples:
  mcaudit-diff site.sets/20261124T160619Z site
  mcaudit audit --json --unlisted site > today; mcaudit-diff yesterday today"""


class Audit:
    """What an audit says."""

    def __init__(self):
        """Begins with nothing."""
        self.devices = None  # by router and vif
        self.ways = {}  # by tree: what `sender` says of each LAN
        self.flows = {}  # by source and group
        self.unlisted = {}  # by group and source: routers
        self.wants, self.excluded, self.verdict = Wants(), [], None
        self.is_whole = True  # whether it tells all pairs that are no flow's

    def take(self, line):
        """Takes one line."""
        self.wants.take(line)
        if "domain" in line:
            self.devices = {(typed(str, it["router"]), typed(int, it["vif"])): it["device"] and typed(str, it["device"])
                            for it in line["domain"]["interfaces"] if it["vif"] is not None}
        elif "entries" in line:
            self.ways[typed(int, line["tree"])] = {typed(str, it["lan"]): self.sender(it) for it in line["entries"]}
        elif "flow" in line:
            self.flows[typed(str, line["source"]), typed(str, line["group"])] = self.flow(line)
        elif "unlisted" in line:
            pair = line["unlisted"]
            self.unlisted[address(pair["group"]), address(pair["source"])] = names(pair["routers"])
        elif "unlisted_more" in line:
            self.is_whole = False
        elif "without" in line:
            self.excluded = names(line["without"])
        elif "verdict" in line:
            self.verdict = line["verdict"]
        elif "summary" in line and line["summary"]["flows"] != len(self.flows):
            raise Refused("it has a flow twice")

    def vif(self, router, vif):
        """Returns a vif by its router and device, or by its number where it has none."""
        device = self.devices.get((typed(str, router), typed(int, vif)))
        return f"{router} vif/{vif}" if device is None else f"{router} {device}"

    def sender(self, entry):
        """Returns who sends onto the LAN of an entry, the least time to live that reaches it, and by which interface
        the sender takes it in, where format 2 says it."""
        start = entry.get("from_vif")
        return (entry["router"] and self.vif(entry["router"], entry["vif"]), typed(int, entry["need"]),
                None if start is None else self.vif(entry["router"], start))

    def flow(self, line):
        """Returns what is told of a flow, as the parts that are compared."""
        is_told = "wanted" in line or "finding" not in line  # format 1 doesn't say it of a flow with a fault
        common = {"ttl": typed(int, line["ttl"]), "wanted": names(line["wanted"]) if is_told else None}
        if "finding" not in line:
            return {**common, "fault": None, "said": "right" if line["right"] else NO_FAULT,
                    "copies": typed(int, line["copies"]), "way": self.ways[line["tree"]]}
        finding = line["finding"]
        place = self.vif(finding["router"], finding["vif"]) if "vif" in finding else typed(str, finding["lan"])
        told = without_vifs([line["found_ttl"], line["also"], line["why"]])
        return {**common, "fault": UNKNOWN * (line["right"] is None) + f"{typed(str, finding['kind'])} {place}",
                "told": told, "behind": self.behind(line)}

    def behind(self, line):
        """Returns what is told of a fault beside that, None where the program was too old to say it."""
        if "behind" not in line:
            return None
        behind, at_ttl = line["behind"] or {}, line["at_ttl"] or {}
        strays = [self.vif(it["router"], it["vif"]) for it in [*behind.get("strays", []), at_ttl] if "vif" in it]
        return without_vifs([{**behind, "strays": [], "shown_from": None}, {**at_ttl, "vif": None}]), strays


def typed(kind, value):
    """Returns the value, which has to be of this kind: a number is none that is a truth value."""
    if type(value) is not kind:  # pylint: disable=unidiomatic-typecheck
        raise TypeError
    return value


def names(value):
    """Returns the value, which has to be a list of texts."""
    return [sys.intern(typed(str, it)) for it in typed(list, value)]  # told again and again, of one pair after another


def address(value):
    """Returns an address as a number, in whose order audit has them."""
    return int(ipaddress.IPv4Address(typed(str, value)))


def without_vifs(told):
    """Returns what explains a fault, without its sentences and the numbers of vifs that have a device, in an order of
    its own."""
    if isinstance(told, list):
        return sorted(map(without_vifs, told), key=json.dumps)
    if not isinstance(told, dict):
        return told
    return {key: without_vifs(it) for key, it in told.items() if key != "text"
            and (not key.endswith("vif") or told.get(key.removesuffix("vif") + "device") is None)}


# The audits

def is_printed(value):
    """Whether audit prints all its texts so: in printable characters of ASCII. Sentences, which may be of two lines,
    aren't compared or told."""
    if isinstance(value, dict):
        return all(is_printed(key) and (key == "text" or is_printed(it)) for key, it in value.items())
    if isinstance(value, list):
        return all(map(is_printed, value))
    return not isinstance(value, str) or all(" " <= it <= "~" for it in value)


def audit_of(objects):
    """Returns what the objects of an audit's lines say."""
    audit = Audit()
    for count, it in enumerate(objects, 1):
        try:
            if not is_printed(it):
                raise ValueError
            audit.take(it)
        except Refused as fault:
            raise Refused(f"line {count}: {fault}") from fault
        except (ValueError, KeyError, TypeError, AttributeError, RecursionError) as fault:
            raise Refused(f"line {count}: it is not a line of audit") from fault
    return audit


def judged(path):
    """Returns what mcaudit says about the set that the folder leads to now. What it refuses it has told by itself."""
    folder = os.path.realpath(path)
    command = [find_tool("mcaudit"), "audit", "--json", "--unlisted", folder]
    status, objects = audits.run_audit(command, f"{path}: mcaudit")
    if not os.path.isdir(folder):
        raise Failed(f"{path}: the set was removed meanwhile")
    if status == 2:
        raise Refused("mcaudit refuses it")
    if status not in (0, 1):
        raise Failed(f"{path}: mcaudit ended with status {status}")
    return objects


def read_audit(path):
    """Reads the audit of a folder, or that which a file has; of standard input by its path alone."""
    with audits.telling(path):
        return audit_of(judged(path) if os.path.isdir(path) else audits.objects_of(path, "/dev/stdin"))


# What changed

def way_changes(old, new):
    """Yields what changed of a way: each change, what was and what is."""
    def sends(way, lan):
        return f"{lan} by {way[lan][0]}" if way[lan][0] else f"{lan} by the source"
    both = [lan for lan in new if lan in old]
    yield from names_change("reached", [sends(old, it) for it in old if it not in new],
                            [sends(new, it) for it in new if it not in old])
    for number, change in enumerate(("forwarder", "least_ttl", "incoming_interface")):
        found = [lan for lan in both if old[lan][number] != new[lan][number]]
        if number == 2:
            found = [it for it in found if old[it][0] == new[it][0] and None not in (old[it][2], new[it][2])]
        tell = (lambda way, lan, at=number: f"{lan} {way[lan][at]}") if number else sends
        if found:
            yield change, [tell(old, lan) for lan in found], [tell(new, lan) for lan in found]


def both_say_otherwise(old, new):
    """Whether two audits say it, and not the same."""
    return None not in (old, new) and old != new


def flow_changes(old, new):
    """Yields what changed of a flow: each change, what was and what is."""
    if old["ttl"] != new["ttl"]:
        yield "ttl", old["ttl"], new["ttl"]
    if old["fault"] != new["fault"]:
        yield "fault", old["fault"], new["fault"] or (NO_FAULT if new["said"] == NO_FAULT else None)
    elif new["fault"] and (old["told"] != new["told"] or both_say_otherwise(old["behind"], new["behind"])):
        yield "explanation", new["fault"], new["fault"]
    if not old["fault"] and not new["fault"]:
        yield from way_changes(old["way"], new["way"])
        if old["copies"] != new["copies"]:
            yield "copies", old["copies"], new["copies"]
    if None not in (old["wanted"], new["wanted"]):
        yield from names_change("wanted", old["wanted"], new["wanted"])
    was = not old["fault"] and not old["wanted"]
    if not new["fault"] and was != (not new["wanted"]):
        yield "unwanted", was, not was


def state_of(flow):
    """Returns what is told of a flow that is in one audit alone."""
    if flow["fault"]:
        return flow["fault"] if flow["fault"].startswith(UNKNOWN) else f"fault {flow['fault']}"
    return f"{flow['said']}, copies {flow['copies']}, wanted by {' '.join(flow['wanted']) or 'nobody'}"


def all_changes(old, new):
    """Yields each change: whose it is, which, what was and what is."""
    for router in dict.fromkeys([*old.excluded, *new.excluded]):
        if (router in old.excluded) != (router in new.excluded):
            yield {"router": router}, "left_out", router in old.excluded, router in new.excluded
    for key in dict.fromkeys([*new.flows, *old.flows]):
        was, now = old.flows.get(key), new.flows.get(key)
        whose = {"flow": {"source": key[0], "group": key[1]}}
        if was and now:
            yield from ((whose, *it) for it in flow_changes(was, now))
        else:
            yield whose, "listed", was and state_of(was), now and state_of(now)
    known = min((max(it.unlisted) for it in (old, new) if not it.is_whole and it.unlisted), default=None)
    for key in sorted({*old.unlisted, *new.unlisted}):
        was, now = old.unlisted.get(key, []), new.unlisted.get(key, [])
        if known is None or key <= known:
            group, source = map(str, map(ipaddress.IPv4Address, key))
            whose = {"unlisted": {"source": source, "group": group}}
            change = "routers" if was and now else "pair"
            yield from ((whose, *it) for it in names_change(change, was, now))
    yield from changes_of_wants(old.wants, new.wants)
    if old.verdict != new.verdict:
        yield {}, "verdict", old.verdict, new.verdict


def faults_first(changes):
    """Returns the changes in an order in which a fault that came or went isn't lost among paths that moved, nor that of
    a flow that is in one audit alone."""
    return sorted(changes, key=lambda it: it[1] not in ("left_out", "fault")
                  and not (it[1] == "listed" and (it[2] or it[3]).startswith(("fault ", UNKNOWN))))


def sides(change, was, now):
    """Returns what has come and what has gone as one text."""
    come, gone = (", ".join(it) if change == "reached" else " ".join(it) for it in (now, was))
    return "; ".join([f"{change} now: {come}"] * bool(now) + [f"{change} no longer: {gone}"] * bool(was))


def fault_text(was, now):
    """Returns how it is told that another fault is found of a flow, that one came or that one went."""
    if now and (now == NO_FAULT or now.startswith(UNKNOWN)):
        state, _, found = now.partition(": ")
        return f"{state} now" + (f": {found}" if found else "") + (f", was {was}" if was else "")
    if was and was.startswith(UNKNOWN) and not now:
        return f"unknown no longer: {was.removeprefix(UNKNOWN)}"
    return f"fault {now}, was {was}" if was and now else f"new fault: {now}" if now else f"fault gone: {was}"


def change_text(change, was, now):
    """Returns a change as a line tells it behind whose it is."""
    if change == "listed":
        return f"listed now: {now}" if now else f"listed no longer: it was {was}"
    if change == "fault":
        return fault_text(was, now)
    if change == "pair":
        return f"come: in the caches of {' '.join(now)}" if now else f"gone: it was in the caches of {' '.join(was)}"
    if change == "explanation":
        return f"same fault, new cause: {now}"
    if change in ("unwanted", "left_out"):
        said = "no LAN wants it" if change == "unwanted" else "excluded"
        return f"{said} now" if now else f"{said} no longer" if change == "left_out" else "some LAN wants it again"
    if change in ("reached", "wanted", "routers", "lans"):
        return sides("LANs" if change == "lans" else change, was, now)
    if change == "forwarding":
        return f"{now}, was {was}"
    if change == "asked":
        return f"come: asked for on {' '.join(now)}" if now else f"gone: it was asked for on {' '.join(was)}"
    if change in ("forwarder", "least_ttl", "incoming_interface"):
        pairs = zip(now, was)
        return f"{change.replace('_', ' ')} " + ", ".join(f"{new}, was {old.split(' ', 1)[1]}" for new, old in pairs)
    return f"{change} {now}, was {was}"


def tell(whose, change, was, now):
    """Returns a change as a line."""
    if change == "verdict":
        return f"verdict {now}, was {was}"
    (kind, of), = whose.items()
    name = f"{of['source'] or ANY} {of['group']}" if isinstance(of, dict) else of
    return f"{kind} {name}: {change_text(change, was, now)}"


def object_of(whose, change, was, now):
    """Returns a change as an object of JSON."""
    return {**whose, "change": change, "was": was, "now": now}


def read_arguments():
    """Reads the arguments."""
    parser = Parser(description=ABOUT, epilog=MORE)
    parser.add_version()
    parser.add_argument("--json", action="store_true", help="print an object a line")
    parser.add_argument("old", metavar="OLD")
    parser.add_argument("new", metavar="NEW")
    return parser.parse_args()


def main():
    """Tells what changed. Returns the status."""
    words = read_arguments()
    old, new = read_audit(words.old), read_audit(words.new)
    if not (old.is_whole and new.is_whole):
        say("only the lowest (S,G) that belong to no listed flow are compared: --unlisted lists all")
    if (old.wants.more or new.wants.more) and None not in (old.wants.count, new.wants.count):
        say("only the lowest wants that no flow answers are compared: --unlisted lists all")
    changes = faults_first(all_changes(old, new))
    with printing():
        for it in changes:
            print(json.dumps(object_of(*it), sort_keys=True, separators=(",", ":")) if words.json else tell(*it))
        sys.stdout.flush()
    return 1 if changes else 0
