#!/usr/bin/env python3
"""Writes what `mcaudit audit --json --travel --unlisted` may answer of a large house: 4,096 flows from 8 studios, through
73 routers to 128 rooms. Each ninth flow is not right, in one of five ways, and no two of these are told alike.

usage: large.py [FLOWS]      writes the lines, each valid by docs/audit.schema.json, to standard output
"""
import json
import os
import random
import sys

sys.path.append(os.path.join(os.path.dirname(os.path.abspath(__file__)), "..", "audited"))
import answers

SEED = 4096
STUDIOS, FLOORS, HALLS, ROOMS = 8, 8, 8, 2  # halls on a floor have a router each, and rooms behind it


class House:
    """The LANs and the vifs, by number, of each router of the house."""

    def __init__(self):
        self.vifs = {"head": [f"studio-{n}" for n in range(STUDIOS)] + ["core"]}
        for floor in range(FLOORS):
            self.vifs[f"d{floor}"] = ["core", f"floor-{floor}"]
            for hall in range(HALLS):
                self.vifs[f"a{floor}-{hall}"] = [f"floor-{floor}"] + [f"room-{floor}-{hall}-{n}" for n in range(ROOMS)]

    def domain(self):
        interfaces = [{"device": f"eth{vif}", "lan": lan, "router": router, "vif": vif}
                      for router, lans in self.vifs.items() for vif, lan in enumerate(lans)]
        return {"interfaces": interfaces, "lans": list(dict.fromkeys(lan for lans in self.vifs.values() for lan in lans)),
                "routers": [{"name": router, "order": "little"} for router in self.vifs],
                "sources": [{"address": f"10.0.{n}.5", "lan": f"studio-{n}"} for n in range(STUDIOS)]}

    def rooms(self):
        return [lan for lans in self.vifs.values() for lan in lans if lan.startswith("room")]

    def entry(self, router, start, vif, rank):
        return {"from_vif": start, "lan": self.vifs[router][vif], "need": rank + 1, "rank": rank, "router": router,
                "vif": vif}

    def entries(self, studio, rooms):
        """The way from a studio to some rooms."""
        entries = [{"from_vif": None, "lan": f"studio-{studio}", "need": 1, "rank": 0, "router": None, "vif": None},
                   self.entry("head", studio, STUDIOS, 1)]
        entries += [self.entry(f"d{floor}", 0, 1, 2) for floor in sorted({room.split("-")[1] for room in rooms})]
        for room in sorted(rooms):
            _, floor, hall, number = room.split("-")
            entries.append(self.entry(f"a{floor}-{hall}", 0, int(number) + 1, 3))
        return entries


def row(flow, router, start, *to):
    return {"from": {"device": f"eth{start}", "vif": start}, "group": flow["group"], "router": router, "source": flow["source"],
            "to": [{"device": f"eth{vif}", "threshold": 1, "vif": vif} for vif in to]}


def event(router, vif, ttl, onto=(), strays=0, outcome="sent"):
    counts = {"copies": len(onto) - strays, "strays": strays} if outcome == "sent" else {}
    return {"onto": list(onto), "outcome": outcome, "router": router, "ttl": ttl, "vif": vif} | counts


def at(router, vif):
    return {"device": f"eth{vif}", "router": router, "vif": vif}


def missed(flow, house, studio, room):
    """No router of a room's floor has a row."""
    _, floor, hall, _ = room.split("-")
    events = [event("head", studio, 255, [STUDIOS])]
    events += [event(f"d{n}", 0, 254, [1] if str(n) == floor else []) for n in range(FLOORS)]
    events += [event(f"a{floor}-{n}", 0, 253, outcome="no row") for n in range(HALLS)]
    why = [{"kind": "gets_as_far_as", "routers": []}, {"kind": "not_taken", "routers": [f"a{floor}-{hall}"]},
           {"kind": "no_row", "lan": room, "router": f"a{floor}-{hall}"}, {"kind": "no_sender", "lan": room}]
    also = [other for other in house.rooms() if other.startswith(f"room-{floor}-") and other != room]
    return {"finding": {"kind": "Missed", "lan": room}, "why": why, "also": also, "events": events}


def not_sent(flow, house, studio, room):
    """The room's own router doesn't send to it."""
    _, floor, hall, number = room.split("-")
    router, vif = f"a{floor}-{hall}", int(number) + 1
    found = missed(flow, house, studio, room)
    found["events"] = [event(router, 0, 253, [3 - vif]) if it["router"] == router else it for it in found["events"]]
    found["why"] = [{"kind": "gets_as_far_as", "routers": [router]}, {"kind": "not_taken", "routers": []},
                    {"kind": "does_not_send", "lan": room, "router": router} | at(router, vif) | {
                        "from_lan": f"floor-{floor}", "carried": True, "row": row(flow, router, 0, 3 - vif)},
                    {"kind": "no_sender", "lan": room}]
    return found | {"also": []}


def duplicate(flow, house, studio, room):
    """Two routers of the core send onto the floor."""
    floor = room.split("-")[1]
    other = f"d{(int(floor) + 1) % FLOORS}"
    why = [{"kind": "sent_onto", "lan": "core", "row": row(flow, "head", studio, STUDIOS)} | at("head", STUDIOS),
           {"kind": "sent_onto", "lan": "core", "row": row(flow, other, 0, 0)} | at(other, 0),
           {"kind": "take_out", "lan": "core", "least": 2, "ttl": flow["ttl"]} | at(other, 0)]
    events = [event("head", studio, 255, [STUDIOS])]
    events += [event(f"d{n}", 0, 254, [0 if f"d{n}" == other else 1]) for n in range(int(other[1:]) + 1)]
    return {"finding": {"kind": "Duplicate", "lan": "core"}, "why": why, "also": [], "events": events, "shown_from": 3}


def stray(flow, house, studio, room):
    """A router sends to a vif without a line."""
    _, floor, hall, _ = room.split("-")
    router = f"a{floor}-{hall}"
    why = [{"device": None, "kind": "no_vif_line", "router": router, "vif": 9},
           {"kind": "row", "row": row(flow, router, 0, 1)}]
    why[1]["row"]["to"].append({"device": None, "threshold": 1, "vif": 9})
    events = [event(router, 0, 253, [1, 9], strays=1) if it["router"] == router else it
              for it in missed(flow, house, studio, room)["events"]]
    return {"finding": {"kind": "Stray", "router": router, "vif": 9}, "why": why, "also": [], "events": events,
            "behind": {"finding": None, "missed": [room], "open": [], "shown_from": None, "strays": [], "why": []},
            "shown_from": 4}


def low(flow, house, studio, room):
    """A threshold stops the flow's packets."""
    found = missed(flow, house, studio, room)
    why = [{"kind": "least_ttl", "lan": room, "least": 66, "ttl": flow["ttl"]},
           {"kind": "stopped_at", "threshold": 64, "ttl": flow["ttl"] - 1} | at(f"d{room.split('-')[1]}", 1)]
    return found | {"why": why, "also": [], "found_ttl": flow["ttl"]}


WRONG = [missed, not_sent, duplicate, stray, low]


def lines(count):
    """The lines of the answer, as objects."""
    rng, house = random.Random(SEED), House()
    yield {"domain": house.domain(), "format": 2, "words": ["--travel", "--unlisted", "--json"]}
    trees, right, unwanted = {}, 0, 0
    for number in range(count):
        studio = number % STUDIOS
        flow = {"flow": number + 1, "group": f"239.1.{number >> 8}.{number & 255}", "source": f"10.0.{studio}.5", "ttl": 16}
        rooms = sorted(rng.sample(house.rooms(), rng.choice([0, 1, 4, 9, 16])))
        if number % 9 == 4:
            room = rng.choice(house.rooms())
            found = WRONG[number // 9 % len(WRONG)](flow, house, studio, room)
            yield flow | {"at_ttl": None, "behind": None, "found_ttl": 255, "right": False, "shown_from": None,
                          "wanted": sorted({*rooms, room})} | found | {"why": answers.with_text(found["why"])}
            continue
        entries = house.entries(studio, rooms)
        name = json.dumps(entries)
        if name not in trees:
            trees[name] = len(trees)
            yield {"entries": entries, "tree": trees[name]}
        yield flow | {"copies": len(entries), "right": True, "tree": trees[name], "wanted": rooms}
        right, unwanted = right + 1, unwanted + (not rooms)
    for number in range(300):
        yield {"unlisted": {"group": f"239.9.0.{number & 255}", "routers": list(house.vifs)[:1 + number % 70],
                            "source": f"10.7.{number >> 8}.9"}}
    for number in range(300):
        routers = list(house.vifs)[:number % 7]
        yield {"asked": {"group": f"239.10.{number >> 8}.{number & 255}", "lans": house.rooms()[:1 + number % 30], "listed": [],
                         "none": [], "routers": routers, "source": None, "star": []}}
    asked = sum(1 + number % 30 for number in range(300))
    yield {"summary": {"asked": asked, "flows": count, "right": right, "unknown": 0, "unwanted": unwanted,
                       "wrong": count - right}}
    yield {"verdict": "yes" if right == count else "no"}


def main():
    for line in lines(int(sys.argv[1]) if len(sys.argv) > 1 else 4096):
        print(json.dumps(line, sort_keys=True, separators=(",", ":")))


if __name__ == "__main__":
    main()
