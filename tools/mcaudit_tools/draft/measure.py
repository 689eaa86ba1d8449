"""Flows: the rows of one source, each with its LAN and its rate, and with its time to live, as packets have it that
tcpdump sees come in on the source's LAN."""
import io
import ipaddress
import re
import shlex

from mcaudit_tools import igmp, recording
from mcaudit_tools.common import Failed, clean, find_tool
from mcaudit_tools.draft.asked import Asked
from mcaudit_tools.draft.told import MOST_FLOWS, PAUSE, Flow
from mcaudit_tools.programs import run

IDLE = f"it is idle: no packet of it was counted in {PAUSE} s"
PACKETS = 3  # packets of a flow that are looked at
MOST_PACKETS = 16 << 20  # bytes of the packets that a router prints
START = """LC_ALL=C
export LC_ALL
command -v tcpdump > /dev/null || {
    echo 'there is no tcpdump: install it there, or set the TTL of all flows by --ttl' >&2
    exit
}
"""


def flow_of(draft, key):
    """Returns the flow of a source and group: with the interfaces on the source's LAN, first those by which their
    routers take it in, and with its rate where it comes in from its source, or else the greatest one."""
    lan = next((it for it, networks in draft.networks.items() if any(key[0] in network for network in networks)), None)
    rows = [(it, it.rows[key].iif) for it in draft.routers if key in it.rows]
    inlets = {(router.name, router.vifs[iif][0]) for router, iif in rows if iif in router.vifs}
    points = sorted(draft.lans.get(lan, []), key=inlets.__contains__, reverse=True)
    rates = {it.name: it.rates[key] for it in draft.routers if key in it.rates}
    rate = next((rates[it] for it, _ in points if it in rates), max(rates.values(), default=None))
    return Flow(*key, lan, rate, points, said="" if lan else "its source is on no LAN of these routers")


def find_flows(draft, given, services):
    """Gives the draft the flows that the routers have rows of and those that are given, by source and group, but for
    what is sent to groups of services; the busiest first where they are too many."""
    pairs = {it for it in given if it[0] is not None}
    found = sorted({*(key for router in draft.routers for key in router.rows), *pairs})
    draft.services = [flow_of(draft, it) for it in found if str(it[1]) in services]
    draft.flows = [flow_of(draft, it) for it in found if str(it[1]) not in services]
    groups = {flow.group for flow in draft.flows}
    draft.asked = [Asked(group, None, is_given=True) for source, group in given if not source and group not in groups]
    if not draft.flows:
        draft.doubts.append("no router has an (S,G) entry, so there is no flow")
    for router in draft.routers:
        for group in sorted(router.wildcards - groups):
            if str(group) not in services:
                draft.doubts.append(f"{router.name}: a (*,G) entry of {group}, whose sources are unknown")
    for flow in draft.flows:
        flow.is_given = (flow.source, flow.group) in pairs
    busiest = sorted(draft.flows, key=lambda it: (not it.is_given, it.rate is None, -(it.rate or (0, 0))[0]))
    for flow in busiest[MOST_FLOWS:]:
        flow.lan, flow.said = None, f"there are more than {MOST_FLOWS} flows"


def command_of(flow, device, options):
    """Returns the words that show packets of the flow as they come in on the device."""
    return (f"tcpdump {options} -Q in -i {shlex.quote(device)} "
            f"'src host {flow.source} and dst host {flow.group}'")


def times_to_live(printed):
    """Returns for each source and group the times to live of the packets that `tcpdump -x` printed, but for those that
    routers drop."""
    lives = {}
    for frame in recording.Recording().frames(io.BytesIO(printed)):
        header = igmp.header_of(frame.data)
        if header is not None and not header.is_dropped:
            ends = ipaddress.IPv4Address(header.sender), ipaddress.IPv4Address(header.target)
            lives.setdefault(ends, set()).add(header.ttl)
    return lives


def ask_packets(words, router, flows):
    """Returns what the router prints when it is asked for packets of the flows, and what it complains of."""
    command = [find_tool("mcaudit-collect"), *words.reach, "--shell", router, *words.ways]
    script = START + "".join(
        f"timeout {words.measure} {command_of(flow, device, f'-l -n -x -s 96 -c {PACKETS}')} < /dev/null\n"
        for flow, device in flows)
    came = run(command, script.encode(), len(flows) * (words.measure + 2) + 20, MOST_PACKETS)
    if came.is_late or came.is_long:
        return b"", ["it did not answer" if came.is_late else f"it printed more than {MOST_PACKETS} bytes"]
    return came.printed, came.sentences()


def measure_on(words, router, flows):
    """Measures the flows on the router. Returns doubts."""
    print(f"{router}: measuring the TTLs of flows: {len(flows)}", flush=True)
    printed, said = ask_packets(words, router, flows)
    lives = {}
    try:
        lives = times_to_live(printed)
    except Failed as fault:
        said = [str(fault)]
    for flow, device in flows:
        found = sorted(lives.get((flow.source, flow.group), ()))
        if not found:
            flow.said = f"no packet of it was seen on {router} {clean(device)}"
        elif len(found) == 1 and found[0]:
            flow.ttl, flow.said = found[0], f"measured on {router} {clean(device)}"
        else:
            flow.said = f"its packets come with different TTLs: {', '.join(map(str, found))}"
    last = [it for it in said if not re.match(r"\d+ packets? |listening on |.*verbose output", it)]
    return [f"{router}: {clean(last[-1])[:200]}"] if last and any(flow.ttl is None for flow, _ in flows) else []


def measure_flows(words, draft, given):
    """Gives the draft's flows their times to live, as they are given, as they were set by --ttl or as they are
    measured."""
    tasks = {}
    for flow in draft.flows:
        key = flow.source, flow.group
        if flow.lan is None:
            continue
        if key in given and given[key].ttl is not None:
            flow.ttl, flow.said = given[key].ttl, "as the list of flows has it"
        elif words.ttl is not None:
            flow.ttl, flow.said = words.ttl, "set by --ttl"
        elif not any(key in it.rows for it in draft.routers):
            flow.said = "the list of flows has no TTL of it, and no router an entry"
        elif flow.rate is not None and not any(key in it.counted for it in draft.routers):
            flow.said = IDLE
        elif flow.points:
            tasks.setdefault(flow.points[0][0], []).append((flow, flow.points[0][1]))
    # (it loads all of logging, and with --ttl nothing is measured)
    import concurrent.futures  # pylint: disable=import-outside-toplevel
    with concurrent.futures.ThreadPoolExecutor(max(1, min(16, len(tasks)))) as pool:
        for doubts in pool.map(lambda it: measure_on(words, *it), tasks.items()):
            draft.doubts += doubts
