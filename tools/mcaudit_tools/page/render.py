"""The page: one file of HTML with the verdict, the flows, the graph, and what its script draws on demand."""
import collections
import json
import os

from mcaudit_tools.common import PROGRAM
from mcaudit_tools.page.explain import FLOW, MEANS, MISSED_PERHAPS, SEEN, some
from mcaudit_tools.page.graph import DRAWING
from mcaudit_tools.page.markup import Markup, digest, json_markup, table_of, tag
from mcaudit_tools.page.remarks import (basis_section, collected_section, unjudged_section, unlisted_section,
                                        wants_section, wants_words)
from mcaudit_tools.page.travel import OUTCOMES

# Where the page's script runs, the table is laid out once, when it is whole, and not again and again
WAIT = 'document.documentElement.dataset.ready = "no";'
SIGNS = {"yes": "✓", "no": "✗", "right": "✓", "wrong": "✗", "unknown": "?", "unwanted": "○"}
KEY = [("lan", "LAN"), ("router", "router, with its devices"), ("way", "the path of the flow"),
       ("fault", "✗ fault"), ("mend", "✂ can be removed"), ("doubt", "? waits, or not audited")]


def right_words(audit):
    """Returns what a flow without a fault is called."""
    return "no fault known" if audit.without else "right"


def verdict_words(audit):
    """Returns what the verdict says, in a sentence or two."""
    flows, wrong, unknown, unwanted = (audit.summary[key] for key in ("flows", "wrong", "unknown", "unwanted"))
    if audit.verdict == "yes":
        said = ("However the routers take turns, no LAN carries a packet of a listed flow twice, no copy leaves the "
                "listed LANs, and each LAN that wants a flow gets it, once, where no copy is lost.")
    elif wrong:
        said = f"{wrong} of {flows} flows {'is' if wrong == 1 else 'are'} wrong."
        said = "The flow is wrong." if flows == 1 else said
    else:
        said = "No flow is known to be wrong."
    if audit.without:
        said += f" Unknown: {unknown}. Excluded: {some(audit.without)}. A yes requires all routers."
    if unwanted:
        flows_are = "flow is" if unwanted == 1 else "flows are"
        said += f" {unwanted} {flows_are} wanted by no LAN, as far as the reports show."
    if audit.wants.count:
        said += f" Beside that, hosts ask for what no flow answers: {wants_words(audit.wants)}."
    return said


def tried_section(tried):
    """Returns what was tried, of which nothing was found in the routers: nothing, where nothing was."""
    if tried is None:
        return []
    items = [tag("li", tag("code", it)) for it in tried.changes]
    doubts = [tag("li", f"Not audited: {it}") for it in tried.unaudited] + [tag("li", it) for it in tried.assumed]
    return [tag("section", tag("h2", "Tried, not found"),
                tag("p", f"This page does not show what was found in {tried.site}. It shows what mcaudit answers for a "
                         "copy of it after these changes, which no router has made by that:"),
                tag("ul", *items), *([tag("p", "What that rests on:"), tag("ul", *doubts)] * bool(doubts)), id="tried")]


def verdict_heading(audit, tried):
    """Returns the sign, the heading and the sentences above all, and their kind: of what was not audited whole there
    is no verdict."""
    if tried is not None and tried.unaudited:
        return "?", "Not audited whole", "A file was not audited whole, so there is no verdict.", "no"
    tail = " after what was tried" if tried is not None else ""
    return SIGNS[audit.verdict], f"Verdict{tail}: {audit.verdict}", verdict_words(audit), audit.verdict


def header(audit, folder, tried):
    """Returns the verdict, what it is about and what it rests on."""
    site = folder.named if folder else None
    sign, heading, said, kind = verdict_heading(audit, tried)
    summary, domain = audit.summary, audit.domain
    facts = [("Flows", summary["flows"]), *((it.capitalize(), summary[it]) for it in ("right", "wrong", "unknown")),
             ("Wanted by nobody", summary["unwanted"]), ("LANs", len(domain.lans)),
             ("Routers", len(domain.routers)), ("Not listed", len(audit.unlisted)),
             *([("Asked for, no flow", audit.wants.count)] if audit.wants.count is not None else [])]
    return tag("header", tag("p", sign, class_="sign", aria_hidden="true"),
               tag("div", tag("h1", heading), tag("p", said), class_="said"),
               tag("dl", *(tag("div", tag("dt", name), tag("dd", value)) for name, value in facts)),
               tag("p", "Multicast audit of ", tag("strong", site), class_="site") if site else "",
               *basis_section(audit, folder),
               class_=f"verdict {kind}")


def row_words(audit, flow):
    """Returns the flow's kinds, by which it can be chosen, and its sign and words."""
    if "kind" in flow:
        words = f"{'unknown: ' * (flow['state'] == 'unknown')}{flow['kind']} {flow['place']}"
        return f"{flow['state']} {flow['kind']}", SIGNS[flow["state"]], words
    words = right_words(audit)
    kinds = "right" if flow["state"] == "right" else "right unknown"
    if not flow["wanted"]:
        return f"{kinds} unwanted", SIGNS["unwanted"], f"{words}, wanted by nobody"
    wanted = [audit.domain.lans[it] for it in flow["wanted"]]
    by = " ".join(wanted) if len(wanted) < 3 else f"{len(wanted)} LANs"
    return kinds, SIGNS[flow["state"]], f"{words}, wanted by {by}"


def flow_row(audit, flow):
    """Returns the flow's row of the table."""
    kinds, sign, words = row_words(audit, flow)
    number = flow["number"]
    link = tag("a", number, href=f"#flow-{number}", aria_label=f"flow {number}")
    return tag("tr", *(tag("td", it) for it in (link, flow["source"], flow["group"], flow["ttl"])),
               tag("td", tag("b", sign, aria_hidden="true"), f" {words}"), class_=kinds)


def choices(audit):
    """Returns the kinds of flows to choose from, with how many there are."""
    counts = collections.Counter(kind for flow in audit.flows for kind in row_words(audit, flow)[0].split())
    counts["all"] = len(audit.flows)
    found = {**{it: it for it in ("all", "wrong", "unknown", *SEEN)}, "right": right_words(audit),
             "unwanted": "wanted by nobody"}
    return [tag("label", tag("input", type="radio", name="kind", value=value, checked="" if value == "all" else None),
                tag("span", f"{words} {counts[value]}")) for value, words in found.items()
            if counts[value] or value == "all"]


def flows_section(audit):
    """Returns the table of flows, with what searches it."""
    return tag("section", tag("h2", "Flows"),
               tag("form", tag("label", "Search ", tag("input", type="search", id="search", autocomplete="off",
                                                       placeholder="an address, a LAN, a router, a finding")),
                   tag("fieldset", tag("legend", "Show"), *choices(audit)), role="search"),
               tag("p", f"{len(audit.flows)} flow" + "s" * (len(audit.flows) != 1), id="count", role="status"),
               tag("div", table_of(("No.", "Source", "Group", "TTL", "Verdict"),
                                   [flow_row(audit, flow) for flow in audit.flows], id="rows"),
                   class_="scroll", id="list"), id="flows")


def flow_section(graph):
    """Returns where a flow's way or fault is shown."""
    tools = [tag("button", words, type="button", id=name, aria_label=label) for name, words, label in (
        ("closer", "+", "larger"), ("farther", "−", "smaller"), ("fit", "whole domain", "show the whole domain"),
        ("focus", "this flow", "show what is marked"))]
    picture = [tag("div", *tools, class_="tools"), tag("div", graph.markup(), id="view", tabindex="0", role="region",
                                                       aria_label="Graph of the domain"),
               tag("figcaption", *(tag("span", words, class_=kind) for kind, words in KEY))] if graph else [
                   tag("p", f"The domain was not drawn in {DRAWING} s: its flows are shown as text only.")]
    return tag("section", tag("h2", "The domain", id="title"), tag("p", id="finding", role="status"),
               tag("div", tag("figure", *picture), tag("div", id="explained"), class_="beside"),
               tag("noscript", tag("p", "This page shows a flow's path and what explains its fault by its own script, "
                                        "which doesn't run here. mcaudit audit says the same as text.")), id="flow")


def page_data(audit, graph):
    """Returns what the page's script draws on demand."""
    left = {it for ports in graph.left.values() for it in ports} if graph else set()
    domain = audit.domain
    return {"lans": domain.lans, "routers": domain.routers, "outcomes": OUTCOMES, "mark": FLOW,
            "means": MEANS | {"unknown": MISSED_PERHAPS},
            "ports": [[it.router, it.device, it.lan, number in left] for number, it in enumerate(domain.ports)],
            "trees": audit.trees, "reasons": [*map(json.loads, audit.reasons)],
            "travels": [*map(json.loads, audit.travels)],
            "right": right_words(audit), "flows": audit.flows}


def text_beside(name):
    """Returns the text of a file that lies beside this module."""
    with open(os.path.join(os.path.dirname(os.path.abspath(__file__)), name), encoding="utf-8") as file:
        return file.read()


def page_of(audit, graph, folder, tried=None):
    """Returns the page, of what was found or of what was tried."""
    style, script = map(text_beside, ("page.css", "page.js"))
    policy = (f"default-src 'none'; base-uri 'none'; form-action 'none'; style-src {digest(style)}; "
              f"script-src {digest(WAIT)} {digest(script)}")
    site = folder.named if folder else None
    named = f" of {site}" if site else ""
    title = "not audited whole" if tried is not None and tried.unaudited else f"Verdict {audit.verdict}"
    title = "Tried: " * (tried is not None) + title
    planned = []
    if audit.plans is not None:
        # (for --plan alone)
        from mcaudit_tools.page.plans import plans_section  # pylint: disable=import-outside-toplevel
        planned = [("What to do about it", plans_section(audit.plans))]
    sections = [*planned, ("What hosts ask for and no flow answers", wants_section(audit)),
                ("Flows that are not listed", unlisted_section(audit)),
                ("What was collected, and when", collected_section(audit.domain, folder)),
                ("What is not judged", unjudged_section(audit, folder))]
    head = [tag("meta", charset="utf-8"), tag("meta", http_equiv="Content-Security-Policy", content=policy),
            tag("meta", name="viewport", content="width=device-width, initial-scale=1"),
            tag("title", f"{title}: multicast audit{named}"), tag("style", Markup(style))]
    body = [tag("script", Markup(WAIT)), header(audit, folder, tried), *tried_section(tried),
            tag("main", flows_section(audit), flow_section(graph)),
            *(tag("section", tag("h2", title), *inner) for title, inner in sections),
            tag("section", id="printed"),
            tag("footer", f"Made by {PROGRAM.name} {PROGRAM.version} from the output of mcaudit audit."),
            tag("script", json_markup(page_data(audit, graph)), type="application/json", id="data"),
            tag("script", Markup(script))]
    return "<!DOCTYPE html>\n" + tag("html", tag("head", *head), "\n", tag("body", *body), lang="en") + "\n"
