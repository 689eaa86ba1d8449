"""Paths of flows and travels of packets, by the numbers of vifs."""

SHOWN_STEPS = 2000  # of a travel
OUTCOMES = ["sent", "open", "no row", "other vif"]


def tree_of(domain, entries):
    """Returns the entries of a path: LAN, rank, need, the vif that sends onto the LAN, and the one by which its router
    takes the copy in, None where that isn't said."""
    ranks, tree = {domain.lan_numbers[it["lan"]]: int(it["rank"]) for it in entries}, []
    for it in sorted(entries, key=lambda it: int(it["rank"])):
        lan, rank = domain.lan_numbers[it["lan"]], int(it["rank"])
        port, start = (None if number is None else domain.port(it["router"], number)
                       for number in (it["vif"], it.get("from_vif")))
        if start is not None and ranks.get(domain.ports[start].lan) != rank - 1:
            raise ValueError("a path that comes from nowhere")
        tree.append([lan, rank, int(it["need"]), port, start])
    return tree


def steps_of(domain, events):
    """Returns how many steps a travel has, and then those that are shown: vif, time to live and outcome, how many
    copies and strays were sent, and by which vifs, where that is said."""
    steps = []
    for event in events[:SHOWN_STEPS]:
        outcome = OUTCOMES.index(event["outcome"])
        counts = [int(event["copies"]), int(event["strays"])] if outcome == 0 else [0, 0]
        sent = [domain.port(event["router"], it) for it in event.get("onto", [])]
        steps.append([domain.port(event["router"], event["vif"]), int(event["ttl"]), outcome, *counts, sent])
    return [len(events), *steps]
