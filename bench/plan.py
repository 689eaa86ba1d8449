#!/usr/bin/env python3
"""Measures mcaudit-plan on large domains: the chain of 256 routers with 4,096 flows that are all wrong, and 4,096 flows in
a domain of 256 dual-homed routers, of which one on the backbone goes down.

usage: plan.py PROGRAM [SHARE ...]      prints, for each share (1/16 and 1), the seconds of a processor and the MiB

The status is 1 where a domain takes more than its bounds, or a flow is not right after the plan.
"""
import fractions
import json
import os
import random
import subprocess
import sys
import tempfile
import typing

sys.dont_write_bytecode = True
import shapes
import texts
from domains import Domain
from premises import MEASURING, TOP, write

DOWN = "router-3"


class Case(typing.NamedTuple):
    """A domain, the changes that are made of it, and the seconds of a processor and MiB that it may take as a whole."""

    make: typing.Callable
    changes: list
    seconds: float
    memory: float


def dual_homed(rng, share):
    """Buildings with a LAN each, of which about 12 take a flow."""
    plan, lans = shapes.buildings(1)
    flows = shapes.flows_of(rng, int(4096 * share), lans, 16)
    return Domain(rng, plan, flows, shapes.subscribed(rng, plan, lans, shapes.packages_of(flows, 256), 16))


CASES = {
    "chain": Case(shapes.faulty, [], 90, 300),
    "down": Case(dual_homed, [f"{DOWN}: down"], 120, 300),
}


def measure(program, site, changes):
    """Plans the site. Returns the seconds of a processor and the MiB that it took, with mcaudit's, and what is found."""
    environment = {**os.environ, "PATH": f"{os.path.dirname(os.path.abspath(program))}:{os.environ['PATH']}"}
    words = [sys.executable, os.path.join(TOP, "tools", "mcaudit-plan"), "--json", site, *changes]
    with tempfile.TemporaryFile() as told:
        done = subprocess.run([sys.executable, "-c", MEASURING, *words], stdout=told, stderr=subprocess.PIPE,
                              env=environment, check=False)
        told.seek(0)
        lines = [json.loads(line) for line in told]
    status, seconds, most = done.stderr.split()[-3:]
    if status not in (b"0", b"1"):
        raise SystemExit(done.stderr.decode())
    plans = [it for it in lines if it.get("plan")]
    counts = {"wrong": sum("flow" in it for it in lines), "planned": len(plans),
              "changes": sum(it["changes"] for it in plans), "right after": lines[-1]["summary"]["right"]}
    return float(seconds), int(most) / 1024, counts


def main():
    """Measures all shares."""
    if len(sys.argv) < 2:
        raise SystemExit(__doc__)
    has_missed = False
    for word in sys.argv[2:] or ("1/16", "1"):
        for name, case in CASES.items():
            domain = case.make(random.Random(shapes.SEED), float(fractions.Fraction(word)))
            with tempfile.TemporaryDirectory(dir="/dev/shm") as folder:
                for kind, owner, text in texts.parts_of(domain):
                    write(folder, kind if owner is None else f"{kind}-{owner}", text)
                seconds, memory, counts = measure(sys.argv[1], folder, case.changes)
            print(f"{word:>5} {name:<6} {seconds:6.1f} s {memory:6.0f} MiB  {counts}", flush=True)
            has_missed |= counts["planned"] != counts["wrong"] or seconds > case.seconds or memory > case.memory
    return int(has_missed)


if __name__ == "__main__":
    sys.exit(main())
