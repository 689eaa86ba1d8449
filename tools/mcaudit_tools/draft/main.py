"""mcaudit-draft: drafts the topology of a domain of what its routers say, for an operator to read.

mcaudit-collect brings each router's vifs, rows, addresses and routes, and its rows again 5 seconds later. A LAN
is a network that vifs have addresses in; a flow is a row of one source. The time to live of a flow is measured: it
is that of packets which tcpdump sees come in on the source's LAN. What isn't sure is a comment in the file, and
never a line: a router is believed of itself alone, and what it says is written as addresses, as numbers, as
the names of its own devices in escapes, or as printable letters of a comment.
"""
import contextlib
import os
import tempfile

from mcaudit_tools.common import Failed, Parser, options_of, say
from mcaudit_tools.draft.asked import find_asked
from mcaudit_tools.draft.flow_list import FlowList
from mcaudit_tools.draft.lans import HARMLESS, place_vifs
from mcaudit_tools.draft.measure import IDLE, find_flows, measure_flows
from mcaudit_tools.draft.text import (asked_words, measuring_words, print_changes, service_counts, take_interfaces,
                                      text_of)
from mcaudit_tools.draft.told import Draft, ask_routers
from mcaudit_tools.files import beside, failing
from mcaudit_tools.programs import RUNNING
from mcaudit_tools.services import SERVICES
from mcaudit_tools.sets import site_of
from mcaudit_tools.topology import read_toml
from mcaudit_tools.ways import REACH

GRACE = 3  # seconds that what it runs has to end what that began
MOST_TOLD = 20  # groups that are asked for
ABOUT = """Drafts SITE/topology from what the routers say. Read it before anything is judged by it.

The routers are given as for mcaudit-collect. LANs are the networks of their vifs, flows their (S,G) entries, with
their rates. Anything that needs a decision is commented out: an interface of an unnumbered link, of a DVMRP tunnel or
a register vif, of a network that the router has twice, of a link whose other end no router has. The TTL of a flow is
measured on a router of the source's LAN, which needs tcpdump and root there. A flow that couldn't be measured is a
comment with the command that measures it, and is named at the end as not judged. Comments are also what hosts send to
groups of services, such as SSDP, and groups that are asked for without a flow, by lists of reports in SITE or by (*,G)
entries. An existing topology is never changed."""
MORE = """Statuses: 0 drafted, and all is certain; 1 drafted, and something is missing or needs a decision. With
--update 0 nothing differs, 1 something does, a router is missing, or the TTL of a flow that isn't idle is unknown. 3
the topology exists already or can't be written, FILE can't be read, or nothing could be asked, 5 usage error.

Examples:
  mcaudit-draft --routers routers --ssh 'ssh -l root' site
  mcaudit-draft --ttl 16 site r1=10.9.0.1 r2=admin@10.9.0.2
  mcaudit-draft --flows channels.csv --routers routers site"""

OPTIONS = [*REACH, ("--timeout", "SECONDS", "give a router up when a reading takes longer (60)", 1, 999, 60),
           ("--ttl", "N", "the TTL of all flows: none is measured", 1, 255, None),
           ("--flows", "FILE", "also take the flows of this list: CSV with the columns source, group and ttl, or M3U "
            "with lines of udp://[SOURCE@]GROUP[:PORT] or rtp://; one without a source is a comment, and so is one "
            "without a TTL, unless --ttl says it or it is measured"),
           ("--measure", "SECONDS", "wait so long for packets of a flow (5)", 1, 600, 5),
           ("--update", None, "change nothing, and print what differs from the existing topology, which gives the "
            "names and the TTLs that weren't measured")]


def write_topology(site, text):
    """Writes the topology whole, and not over another."""
    path = os.path.join(site, "topology")
    made = None if os.path.isdir(site) else site
    try:
        with failing(f"{path} can't be written"):
            os.makedirs(site, exist_ok=True)
            locked = site_of(site)
            with locked.writing() if locked else contextlib.nullcontext(), beside(path, is_new=True) as file:
                file.write(text.encode("ascii"))
            made = None
    finally:
        if made:
            with contextlib.suppress(OSError):  # it holds something else by now
                os.rmdir(made)


def read_arguments():
    """Reads the arguments."""
    words = Parser(description=ABOUT, epilog=MORE)
    words.add_argument("site", metavar="SITE")
    words.add_argument("ways", metavar="NAME=ADDRESS", nargs="*", help="a router and its address")
    words.add_options(OPTIONS)
    words.add_version()
    found = words.parse_args()
    found.timeout = str(found.timeout)
    found.reach = options_of(found, "--routers", "--ssh")
    return found


def tell(draft, flow_list, is_update):
    """Says what the draft lacks, and last which flows aren't judged. Returns whether it lacks anything; beside a
    topology that is there, which an operator has read, interfaces that aren't sure, idle flows and groups without a
    flow are told alone."""
    others = [it for it in draft.flows if it.ttl is None]
    unsure = [it for it in draft.unsure if it[2] not in HARMLESS]
    asked = [it for it in draft.asked if it.lans or it.is_given]
    for sentence in [*flow_list.sentences(), *(f"missing: {it}" for it in draft.doubts),
                     *(f"needs a decision: {router} {device}: {why}" for router, device, why, _ in unsure),
                     *(f"left out: {group}, {SERVICES[str(group)]}, a service of hosts: sources {count}"
                       for group, count in service_counts(draft).items()),
                     *(f"no flow: {it.source or '?'} {it.group}: {asked_words(it)}" for it in asked[:MOST_TOLD]),
                     *[f"and {len(asked) - MOST_TOLD} more without a flow"] * (len(asked) > MOST_TOLD),
                     *(f"not judged: {it.source} {it.group}: {it.said}{measuring_words(it)}" for it in others)]:
        say(sentence)
    if is_update:
        return bool(flow_list.faults or draft.doubts or any(it.said != IDLE for it in others))
    return bool(flow_list.faults or draft.doubts or unsure or asked or others)


def draft_flows(words, draft, flow_list, known):
    """Gives the draft its flows, beside those that are known, each with its time to live, and the groups that are asked
    for without one. A service that is known or given is none."""
    services = SERVICES.keys() - {str(group) for _, group in (*flow_list.flows, *known)}
    find_flows(draft, flow_list.flows, services)
    measure_flows(words, draft, flow_list.flows)
    find_asked(draft, os.path.realpath(words.site), services, known)


def compare(words, draft, flow_list, topology):
    """Compares the draft with the topology that is there. Returns whether something differs."""
    try:
        take_interfaces(draft, topology)
        draft_flows(words, draft, flow_list, {(it["source"], it["group"]) for it in topology.get("flow", [])})
        return print_changes(draft, topology)
    except (KeyError, TypeError, AttributeError) as fault:
        raise Failed(f"{words.site}/topology is not a valid topology: see what mcaudit says of it") from fault


def draft_topology(words, scratch):
    """Drafts the topology, or compares it with the one that is there. Returns the status."""
    path = os.path.join(words.site, "topology")
    if os.path.lexists(path) and not words.update:
        raise Failed(f"{path} exists already: --update prints what has changed")
    topology = read_toml(os.path.realpath(words.site), words.site) if words.update else None
    flow_list = FlowList(words.flows)
    draft = Draft(*ask_routers(words, scratch))
    place_vifs(draft)
    if words.update:
        differs = compare(words, draft, flow_list, topology)
        return 1 if tell(draft, flow_list, True) or differs else 0
    draft_flows(words, draft, flow_list, set())
    write_topology(words.site, text_of(draft))
    judged, interfaces = sum(it.ttl is not None for it in draft.flows), sum(map(len, draft.lans.values()))
    print(f"{path}: LANs {len(draft.lans)}, routers {len(draft.routers)}, interfaces {interfaces}, flows {judged}")
    return 1 if tell(draft, flow_list, False) else 0


def main():
    """Drafts. Returns the status."""
    words = read_arguments()
    RUNNING.grace = GRACE
    with tempfile.TemporaryDirectory(prefix="mcaudit-draft-") as scratch:
        return draft_topology(words, scratch)
