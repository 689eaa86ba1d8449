"""What explains a fault, in audit's own sentences, and what each line of it marks in the graph."""
from mcaudit_tools.audit import finding_text
from mcaudit_tools.common import some

SHOWN_LINES = 40  # of a search
FLOW = "\x01"  # stands for (source,group) in lines that flows have in common
UNPLACED = ("no_vif_line", "register_vif", "tunnel", "no_device", "on_no_lan")
EXPECTED = ("from_no_vif_line", "from_register", "from_tunnel", "from_no_device", "from_no_lan")
# What each kind of line marks in the graph: elements, each with a class and a sign
MARKS = {
    "sent_onto": [("port", "fault", "forwards it")],
    "circle": [("start", "fault", ""), ("end", "fault", "")],
    "take_out": [("port", "mend", "remove")],
    "only_every_source": [("port", "fault", ""), ("router", "fault", "entry for every source")],
    "stopped_at": [("port", "fault", "threshold {threshold}")],
    "gets_as_far_as": [("routers", "reached", "")],
    "not_taken": [("routers", "fault", "not taken")],
    "left_out": [("router", "doubt", "excluded")],
    "no_row": [("router", "fault", "no entry")],
    "unresolved": [("router", "fault", "unresolved entry")],
    "every_source": [("router", "doubt", "entry for every source")],
    "does_not_send": [("port", "fault", "not forwarded")],
    "stopped": [("port", "fault", "threshold {threshold}")],
    "waits_for": [("start", "doubt", "waits")],
    "no_vif": [("device", "fault", "no vif")],
    "not_multicast": [("device", "fault", "no multicast vif")],
    "expected_from_here": [("routers", "doubt", "expects it from here")],
    "no_router": [("lan", "fault", "no router")],
    "no_sender": [("lan", "fault", "no sender")],
    **{kind: [("port", "fault", "")] for kind in UNPLACED},
    **{kind: [("start", "fault", "expected here")] for kind in EXPECTED},
}

# What is seen at the place of a finding, and what that is in the network
SEEN = {"Duplicate": "carries it twice", "Loop": "loops back here", "Stray": "strays", "Missed": "missed"}
MEANS = {
    "Duplicate": "The LAN carries each packet twice or more: hosts see double packets.",
    "Loop": "A copy came back to a LAN where it had been, and circulates until its TTL is used up.",
    "Stray": "A router sends a copy where the topology knows nothing, or follows an entry that isn't audited.",
    "Missed": "The LAN wants the flow, and no copy reaches it.",
}
MISSED_PERHAPS = ("The LAN wants the flow, and by the known tables no copy reaches it. It may go on at an excluded "
                  "router: add no interface to another router's entry for it.")


def device_text(device, vif):
    """Returns how a vif is told."""
    return f"vif/{vif}" if device in (None, "none") else str(device)


def element_of(domain, what, line, router):
    """Returns the element of the graph of which a line tells; of a router, that of this one."""
    if what == "lan":
        return f"l{domain.lan_numbers[line['lan']]}"
    if what in ("router", "routers"):
        return f"r{domain.router_numbers[router]}"
    if what == "device":
        return f"p{domain.port_of_device(router, line['device'])}"
    return f"p{domain.port(router, line[{'port': 'vif', 'start': 'from_vif', 'end': 'to_vif'}[what]])}"


def sentence_of(line):
    """Returns the sentence of a line; of 0.2.0, whose lines had none, what kind it is and what it names."""
    if "text" in line:
        return line["text"]
    named = [str(line[it]) for it in ("from_lan", "to_lan", "lan", "router", "device") if line.get(it) is not None]
    named += [some(line["routers"])] if line.get("routers") else []
    return " ".join([line["kind"].replace("_", " ") + ":", *named]) if named else ""


def told_of(domain, lines):
    """Returns the texts of these lines, each with what it marks in the graph: elements, each with a class and a
    sign."""
    told = []
    for line in lines:
        marks = [[element_of(domain, what, line, router), kind, sign.format(**line)]
                 for what, kind, sign in MARKS.get(line["kind"], ())
                 for router in (line["routers"] if what == "routers" else [line.get("router")])]
        told += [[text, marks] for text in sentence_of(line).split("\n") if text]
    return told


def explanation(domain, lines):
    """Returns the texts of an explanation, each with what it marks in the graph."""
    if not lines or lines[0]["kind"] != "gets_as_far_as":
        return told_of(domain, lines)
    rest = len(lines) - 2 - SHOWN_LINES
    return told_of(domain, lines[:2 + SHOWN_LINES]) + ([[f"and {rest} more lines", []]] if rest > 0 else [])


def told_of_ttls(line):
    """Returns from which TTL on packets show a finding, and what one with the flow's own shows."""
    told = []
    if line.get("shown_from") is not None:
        told.append([f"shown by packets sent with ttl {int(line['shown_from'])} or more", []])
    if line.get("at_ttl") is not None:
        told.append([f"with this flow's ttl {int(line['ttl'])}: {finding_text(line['at_ttl'])}", []])
    return told


def told_behind(domain, behind):
    """Returns the texts of what is behind a stray, each with what it marks in the graph."""
    finding = behind["finding"]
    if finding is not None:
        seen = [[f"l{domain.lan_numbers[finding['lan']]}", "fault", SEEN[finding["kind"]]]]
        inner = explanation(domain, behind["why"]) + told_of_ttls({"shown_from": behind["shown_from"]})
        return [[f"behind it: {finding_text(finding)}", seen], *([f"  {text}", marks] for text, marks in inner)]
    ports = [domain.port(it["router"], it["vif"]) for it in behind["strays"]]
    strays = [f"{domain.routers[it.router]} {it.device}" for it in map(domain.ports.__getitem__, ports)]
    told = [["also leaves by " + some(strays, ", "), [[f"p{it}", "fault", SEEN["Stray"]] for it in ports]],
            ["not known past " + some(behind["open"]),
             [[f"r{domain.router_numbers[it]}", "doubt", "entry for every source"] for it in behind["open"]]],
            ["missed, unless what leaves there reaches it: " + some(behind["missed"]),
             [[f"l{domain.lan_numbers[it]}", "doubt", "missed?"] for it in behind["missed"]]]]
    return [[f"behind it: {text}", marks] for text, marks in told if marks]
