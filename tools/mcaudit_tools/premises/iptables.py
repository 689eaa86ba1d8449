"""The older tables of iptables, as iptables-legacy-save prints them, in the form of nftables' JSON."""
import ipaddress
import re
import shlex

from mcaudit_tools.premises.rules import MOST_STEPS

FAMILY = "ip"
PRIORITIES = {"raw": -300, "mangle": -150, "filter": 0}
POLICY = re.compile(r":(\S+) (\S+)|-P (\S+) (\S+)")
RULE = re.compile(r"(?:\[\d+:\d+\] )?-A (\S+)(.*)")
MOST_LETTERS = 4000  # of a rule that is read
PLAIN = "conntrack", "state", "comment", "udp", "tcp"  # matches that are no condition by themselves
TARGETS = {"ACCEPT": "accept", "DROP": "drop", "REJECT": "reject", "RETURN": "return", "LOG": "log", "NFLOG": "log",
           "NFQUEUE": "queue", "DNAT": "dnat", "REDIRECT": "dnat", "TPROXY": "dnat", "MARK": "counter", "TTL": "mangle",
           "CT": "notrack", "NOTRACK": "notrack"}


def items_of(lines):
    """Yields the chains and rules of the lines, as nftables has them."""
    table = ""
    for line in lines[:MOST_STEPS]:
        policy, rule = POLICY.match(line), RULE.match(line)
        if line.startswith("*"):
            table = line[1:].strip()
        elif policy:
            name, target = (policy[1] or policy[3]), (policy[2] or policy[4])
            begun = {} if target == "-" else {"hook": name.lower(), "policy": target.lower(),
                                              "prio": PRIORITIES.get(table, 50)}
            yield {"chain": {"family": FAMILY, "table": table, "name": name, **begun}}
        elif rule:
            yield {"rule": {"family": FAMILY, "table": table, "chain": rule[1], "expr": expressions(rule[2])}}


def condition(left, right, is_not):
    """Returns a condition as nftables has it."""
    return {"match": {"op": "!=" if is_not else "==", "left": left, "right": right}}


def network_of(text):
    """Returns a network as nftables has it."""
    network = ipaddress.ip_network(text, strict=False)
    return {"prefix": {"addr": str(network.network_address), "len": network.prefixlen}}


def known_condition(option, value, is_not):
    """Returns the condition of an option that is known, or None."""
    if option in ("-s", "-d"):
        field = {"protocol": "ip", "field": "saddr" if option == "-s" else "daddr"}
        return condition({"payload": field}, network_of(value), is_not)
    if option in ("-i", "-o"):
        key = "iifname" if option == "-i" else "oifname"
        return condition({"meta": {"key": key}}, re.sub(r"\+$", "*", value), is_not)
    if option == "-p" and value != "all":
        return condition({"meta": {"key": "l4proto"}}, int(value) if value.isdigit() else value, is_not)
    if option in ("--ctstate", "--state"):
        return condition({"ct": {"key": "state"}}, {"set": value.lower().split(",")}, is_not)
    return {"comment": value} if option == "--comment" or option == "-m" and value in PLAIN else None


def expressions(text):
    """Returns the conditions and the target of a rule; a condition that isn't known has a name that nobody knows."""
    found, is_not = [], False
    try:
        if len(text) > MOST_LETTERS:
            raise ValueError
        words = shlex.split(text)
        while words:
            option = words.pop(0)
            if option == "!":
                is_not = True
                continue
            if option in ("-j", "-g") and words:
                kind = TARGETS.get(words[0], "jump" if option == "-j" else "goto")
                return found + [{kind: {"target": words[0]}}]
            known = known_condition(option, words[0], is_not) if words else None
            if known:
                words.pop(0)
            found.append(known or {"unknown": option})
            is_not = False
    except ValueError:
        return [{"unknown": text[:MOST_LETTERS]}, {"queue": None}]
    return found
