"""What an audit answers, as a page needs it: by numbers, and each thing once."""
import collections
import json
import sys

from mcaudit_tools import audit as audits
from mcaudit_tools.common import Failed, Refused, find_tool, options_of
from mcaudit_tools.page.explain import (FLOW, SEEN, device_text, explanation, some, told_behind, told_of_ttls)
from mcaudit_tools.page.travel import steps_of, tree_of
from mcaudit_tools.premises import domain as premises
from mcaudit_tools.wants import Wants

Port = collections.namedtuple("Port", "router device vif lan")


class Domain:
    """The LANs, routers and vifs of an audit, each told by its number."""

    def __init__(self, line):
        """Takes the domain of the first line."""
        self.lans, self.routers = [str(it) for it in line["lans"]], [str(it["name"]) for it in line["routers"]]
        self.lan_numbers, self.router_numbers = (
            {name: number for number, name in enumerate(names)} for names in (self.lans, self.routers))
        self.sources = {it["address"]: self.lan_numbers[it["lan"]] for it in line["sources"]}
        self.ports, self.by_vif = [], {}
        for it in line["interfaces"]:
            lan = None if it["lan"] is None and it["vif"] is not None else self.lan_numbers[it["lan"]]
            self.add(Port(self.router_numbers[it["router"]], device_text(it["device"], it["vif"]), it["vif"], lan))

    def add(self, port):
        """Adds a vif, or an interface that has none."""
        if port.vif is not None:
            self.by_vif[port.router, port.vif] = len(self.ports)
        self.ports.append(port)

    def port(self, router, vif):
        """Returns the number of the router's vif. One that its table has no line for is on no LAN."""
        key = self.router_numbers[router], int(vif)
        if key not in self.by_vif:
            self.add(Port(key[0], device_text(None, vif), vif, None))
        return self.by_vif[key]

    def port_of_device(self, router, device):
        """Returns the number of the router's interface of this name."""
        router = self.router_numbers[router]
        return next(number for number, it in enumerate(self.ports) if (it.router, it.device) == (router, device))


def place_of(domain, finding):
    """Returns the element of the graph where something is found, and how that is named."""
    if finding["kind"] == "Stray":
        port = domain.port(finding["router"], finding["vif"])
        return f"p{port}", f"{finding['router']} {finding['vif']} ({domain.ports[port].device})"
    return f"l{domain.lan_numbers[finding['lan']]}", str(finding["lan"])


class Audit:
    """What an audit answers, taken line by line, which `audit` has seen to be all and in their order."""

    def __init__(self):
        """Begins with nothing."""
        self.domain = self.summary = self.verdict = None
        self.wants, self.ignored = Wants(), []
        self.trees, self.flows, self.unlisted, self.without = [], [], [], []
        self.reasons, self.travels = {}, {}  # their numbers by their JSON, each once
        self.unlisted_more = 0
        self.premises = premises.Answer()
        self.plans = None  # of its flows, where they are shown beside it

    def take(self, line):
        """Takes a line's object."""
        self.premises.take(line)
        self.wants.take(line)
        if self.domain is None:
            self.domain = Domain(line["domain"])
            words = [str(it) for it in line["words"]]
            self.ignored = [it for before, it in zip(words, words[1:]) if before == "--ignore"]
        elif "entries" in line:
            self.trees.append(tree_of(self.domain, line["entries"]))
        elif "flow" in line:
            self.flows.append(self.flow(line))
        elif "unlisted" in line:
            pair = line["unlisted"]
            self.unlisted.append((str(pair["source"]), str(pair["group"]), [str(it) for it in pair["routers"]]))
        elif "unlisted_more" in line:
            self.unlisted_more = int(line["unlisted_more"]["rows"])
        elif "without" in line:
            self.without = [str(it) for it in line["without"]]
        elif "summary" in line:
            self.summary = {key: int(line["summary"][key]) for key in audits.counted(line["summary"])}
        elif "verdict" in line:
            self.verdict = {"yes": "yes", "no": "no"}[line["verdict"]]

    def flow(self, line):
        """Returns a flow: by its tree, or where it is not right, with what explains it."""
        wanted = line.get("wanted", []) if "finding" in line else line["wanted"]  # format 1 doesn't say it of a fault
        flow = {"number": int(line["flow"]), "source": str(line["source"]), "group": str(line["group"]),
                "ttl": int(line["ttl"]), "lan": self.domain.sources[line["source"]],
                "state": {True: "right", False: "wrong", None: "unknown"}[line["right"]],
                "wanted": [self.domain.lan_numbers[lan] for lan in wanted]}
        if "finding" in line:
            return flow | self.fault(line, flow)
        return flow | {"copies": int(line["copies"]), "tree": range(len(self.trees))[line["tree"]]}

    def fault(self, line, flow):
        """Returns what is told of a flow with a finding."""
        domain, finding, kind = self.domain, line["finding"], "doubt" if flow["state"] == "unknown" else "fault"
        told = told_of_ttls(line) + explanation(domain, line["why"])
        also = [str(lan) for lan in line["also"]]
        if also:
            marks = [[f"l{domain.lan_numbers[lan]}", kind, "missed"] for lan in also]
            told.append([f"also missed: {some(also)}", marks])
        if line.get("behind") is not None:
            told += told_behind(domain, line["behind"])
        told = [[text.replace(f"({flow['source']},{flow['group']})", FLOW), marks] for text, marks in told]
        place, words = place_of(domain, finding)
        told.insert(0, ["", [[place, kind, SEEN[finding["kind"]]]]])
        steps = json.dumps(steps_of(domain, line.get("events", [])))
        return {"kind": finding["kind"], "place": words, "found_ttl": int(line["found_ttl"]),
                "why": self.reasons.setdefault(json.dumps(told), len(self.reasons)),
                "travel": self.travels.setdefault(steps, len(self.travels))}


def audit_of(objects):
    """Returns what the objects of an audit's lines say."""
    audit = Audit()
    for number, it in enumerate(objects, 1):
        try:
            audit.take(it)
        except (AttributeError, LookupError, RecursionError, StopIteration, TypeError, ValueError) as fault:
            raise Refused(f"line {number} is none of an audit in JSON: {type(fault).__name__} {fault}") from fault
    return audit


def run_audit(words, folder):
    """Runs the audit that the words ask for of the folder, and returns what it answers."""
    command = [words.program or find_tool("mcaudit"), "audit", folder.path, "--json", "--travel", "--unlisted",
               *options_of(words, "--without")]
    status, objects = audits.run_audit(command, "mcaudit audit")
    if status in (2, 3):
        folder.check()
    if 2 <= status <= 5:
        sys.exit(status)  # it has said why
    if status not in (0, 1):
        raise Failed(f"mcaudit audit ended with status {status}")
    try:
        answer = audit_of(objects)
    except Refused as fault:
        raise Failed(f"what mcaudit audit answers can't be read: {fault}") from fault
    if (answer.verdict == "yes") != (status == 0):
        raise Failed(f"mcaudit audit printed another verdict than that of its status {status}")
    return answer


def read_audit(path):
    """Returns what the file says that an audit answered; `-` is standard input."""
    with audits.telling(path):
        return audit_of(audits.objects_of(path, "-"))
