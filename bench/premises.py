#!/usr/bin/env python3
"""Measures mcaudit-premises on shares of the largest domain, 4,096 flows through 256 routers in a row: with the facts
of all routers, without a finding and with one of each flow, with a filter's rule for each flow, and with four sets.

usage: premises.py PROGRAM [SHARE ...]      prints, for each share (1/16 and 1), the seconds of a processor and the MiB
"""
import fractions
import json
import os
import random
import subprocess
import sys
import tempfile
import time

sys.dont_write_bytecode = True
import shapes
import texts
from domains import dotted

TOP = os.path.dirname(os.path.dirname(os.path.abspath(__file__)))
SETTINGS = {"rp_filter": 1, "mc_forwarding": 1, "accept_local": 0, "src_valid_mark": 0}
SETS = [f"20260101T00000{number}Z" for number in range(4)]
RISE = 300  # packets of a row from one set to the next
# runs a command from a process that is small, since a process counts the memory of the one that starts it
MEASURING = """import os, resource, sys
status = os.spawnvp(os.P_WAIT, sys.argv[1], sys.argv[1:])
used = resource.getrusage(resource.RUSAGE_CHILDREN)
print(status, used.ru_utime + used.ru_stime, used.ru_maxrss, file=sys.stderr)"""
CHAIN = {"family": "inet", "table": "filter", "chain": "forward"}


def rule_of(flow):
    """A rule of nftables that lets the group of a flow through."""
    match = {"op": "==", "left": {"payload": {"protocol": "ip", "field": "daddr"}}, "right": dotted(flow.group)}
    return {"rule": {**CHAIN, "expr": [{"match": match}, {"accept": None}]}}


def rules_of(domain):
    """The rules of a router with one for each flow, in JSON."""
    chain = {"family": "inet", "table": "filter", "name": "forward", "hook": "forward", "prio": 0, "policy": "drop"}
    return json.dumps({"nftables": [{"chain": chain}, *map(rule_of, domain.flows)]}, separators=(",", ":"))


def routes_of(domain, router, is_away):
    """The routes back to all sources, by the vif that is nearer to them, or by the other one."""
    own = domain.plan.routers[router]
    for source, lan in sorted({flow.source: flow.lan for flow in domain.flows}.items()):
        vif = min(range(len(own)), key=lambda it: abs(own[it] - lan))
        yield dotted(source), f"eth{(len(own) - 1 - vif) if is_away else vif}"


def facts_of(domain, router, tables, is_away, rules):
    """The facts of a router, whose tables are given."""
    devices = [f"eth{vif}" for vif in range(len(domain.plan.routers[router]))]
    routes = list(routes_of(domain, router, is_away))
    answers = "".join(json.dumps([{"dst": source, "dev": device}]) for source, device in routes)
    addresses = [{"ifname": it, "addr_info": [{"family": "inet", "prefixlen": 24,
                                               "local": f"172.16.{router}.{number}"}]}
                 for number, it in enumerate(devices)]
    sections = {
        "about": ["order little uid 0 kernel 6 machine x86_64 time 0"], **tables,
        "settings": [f"/proc/sys/net/ipv4/conf/{device}/{name} {value}" for device in ("all", *devices)
                     for name, value in SETTINGS.items()],
        "links": [f"/sys/class/net/{device}/{name}" for number, device in enumerate(devices)
                  for name in (f"ifindex {number + 2}", "carrier 1", "flags 0x1003", "mtu 1500")],
        "address": [json.dumps(addresses)], "mrule": ["32767: from all lookup default"], "mroute": [],
        "routes": [*(f"source {source}" for source, _ in routes), answers], "nft": [rules or "!not loaded"],
        "nft_devices": [], "legacy": [], "end": []}
    return "".join(f"@{name}\n" + "".join(f" {it}\n" for it in lines) for name, lines in sections.items())


def write(folder, name, text):
    """Writes a file of a set."""
    with open(os.path.join(folder, name), "w", encoding="ascii") as file:
        file.write(text)


def write_set(domain, folder, is_away=False, rules=""):
    """Writes a set with its facts."""
    os.makedirs(folder)
    tables = {}
    for kind, owner, text in texts.parts_of(domain):
        write(folder, kind if owner is None else f"{kind}-{owner}", text)
        tables.setdefault(owner, {})[f"ip_mr_{kind}"] = text.splitlines()
    for router in range(len(domain.plan.routers)):
        write(folder, f"facts-router-{router}", facts_of(domain, router, tables[f"router-{router}"], is_away, rules))


def write_sets(folder):
    """Makes four sets of the one that is there, without its facts, in which all rows count on."""
    first = os.path.join(folder, SETS[0])
    for number, name in enumerate(SETS):
        told, at = {}, int(time.time()) - 600 + 20 * number
        os.makedirs(os.path.join(folder, name), exist_ok=True)
        for file in os.listdir(first):
            kind, _, owner = file.partition("-")
            if kind == "facts" or number == 0 and file == "collected.json":
                continue
            with open(os.path.join(first, file), encoding="ascii") as opened:
                text = opened.read()
            if kind == "cache":
                rows = (line.split() for line in text.splitlines()[1:])
                text = "Group\n" + "".join(" ".join([*it[:3], str(int(it[3]) + number * RISE), *it[4:]]) + "\n"
                                           for it in rows)
            if kind in ("cache", "vif"):
                told[file] = {"by": "collect", "of": owner, "time": at}
            if number:
                write(os.path.join(folder, name), file, text)
            os.utime(os.path.join(folder, name, file), (at, at))
        write(os.path.join(folder, name), "collected.json", json.dumps({"version": 2, "files": told}))


def measure(program, site):
    """Judges the site. Returns the seconds of a processor and the MiB that mcaudit-premises itself took."""
    environment = {**os.environ, "PATH": f"{os.path.dirname(os.path.abspath(program))}:{os.environ['PATH']}"}
    words = [sys.executable, os.path.join(TOP, "tools", "mcaudit-premises"), "--json", site]
    done = subprocess.run([sys.executable, "-c", MEASURING, *words], stdout=subprocess.DEVNULL, stderr=subprocess.PIPE,
                          env=environment, check=False)
    status, seconds, most = done.stderr.split()[-3:]
    if status not in (b"0", b"1"):
        raise SystemExit(done.stderr.decode())
    return f"{float(seconds):6.1f} s {int(most) / 1024:6.0f} MiB"


def main():
    """Measures all shares."""
    if len(sys.argv) < 2:
        raise SystemExit(__doc__)
    for word in sys.argv[2:] or ("1/16", "1"):
        domain = shapes.chain(random.Random(shapes.SEED), float(fractions.Fraction(word)))
        for name, how in (("facts", {}), ("facts that contradict", {"is_away": True}),
                          ("facts with filters", {"rules": rules_of(domain)}), ("four sets", None)):
            with tempfile.TemporaryDirectory() as folder:
                write_set(domain, os.path.join(folder, "site.sets", SETS[0]), **(how or {}))
                if how is None:
                    write_sets(os.path.join(folder, "site.sets"))
                os.symlink(os.path.join("site.sets", SETS[0 if how is not None else -1]), os.path.join(folder, "site"))
                print(f"{word:>5} {name:<22} {measure(sys.argv[1], os.path.join(folder, 'site'))}", flush=True)


if __name__ == "__main__":
    main()
