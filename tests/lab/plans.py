#!/usr/bin/env python3
"""Plays what mcaudit-plan prints on the routers of a lab, command by command, while the source sends numbered packets
of each flow and hosts note how often each of them comes. The plan is held against that.

  python3 tests/lab/plans.py LAB FOLDER HOSTS [CHANGE ...]

LAB is what the names of the network namespaces begin with, FOLDER has the site, and the sockets of smcrouted, and HOSTS
are the hosts, as NAME=ADDRESS, in one word. A CHANGE is one of mcaudit-plan's, of something that is so by now.

It judges packets by when they were sent:

- Before the first command, between two of them, and after the last one a state lasts. Those packets of a state that
  had the time to arrive before the next command do what the plan says: the LANs that it names at a command have lost
  the stream, which they had before the plan, and no other ones have; the LAN that it says is missed gets none; and
  where it says `right` each host that wants the flow hears each packet once.
- From the first state on in which the plan finds no loop, no duplicate and no stray, no host hears any packet twice,
  those included that are sent while a command is carried out. Before that the fault itself makes second copies, and
  behind a stray there may be some. So a plan for a LAN that is missed is judged from the beginning, and one for a
  duplicate from the end of the command that takes it away.
- Of the flows that are right, and those that were mended before, each host hears each packet once, all the while.
"""
import collections
import ctypes
import json
import os
import select
import socket
import subprocess
import sys
import time

TOOLS = os.path.join(os.path.dirname(os.path.abspath(__file__)), "..", "..", "tools")
NETWORK = 0x40000000  # CLONE_NEWNET
PORT = 5004
# Seconds from packet to packet, of a state, and after which no packet is on its way any more
EVERY, LASTING, UNDERWAY = 0.03, 2.0, 0.7
SECOND = "Loop", "Duplicate", "Stray"  # what a host may hear a packet twice of


def fail(text):
    """Ends, for a reason."""
    raise SystemExit(f"lab: the plan: {text}")


def objects_of(words, statuses=(0, 1)):
    """Returns the objects that a command prints, one on each line."""
    done = subprocess.run(words, stdout=subprocess.PIPE, check=False)
    if done.returncode not in statuses:
        fail(f"{words} ended with {done.returncode}")
    return [json.loads(it) for it in done.stdout.splitlines()]


def lan_of(address):
    """Returns the LAN of an address, by the name that mcaudit-site gives it."""
    return address[:address.rindex(".")] + ".0-24"


def socket_at(place):
    """Returns a socket in a network namespace."""
    with open(f"/run/netns/{place}", "rb") as there, open("/proc/self/ns/net", "rb") as here:
        setns = ctypes.CDLL(None, use_errno=True).setns
        if setns(there.fileno(), NETWORK):
            fail(f"{place}: {os.strerror(ctypes.get_errno())}")
        try:
            return socket.socket(socket.AF_INET, socket.SOCK_DGRAM)
        finally:
            setns(here.fileno(), NETWORK)


class Traffic:
    """A source that sends numbered packets of each flow, and hosts that note each one that comes."""

    def __init__(self, lab, flows, hosts):
        """Takes the flows, and the addresses of the hosts by their names."""
        self.senders, self.receivers, self.heard = {}, {}, collections.Counter()
        self.number, self.due = 0, time.monotonic()
        for flow in flows:
            source, group = socket.inet_aton(flow["source"]), socket.inet_aton(flow["group"])
            self.senders[flow["group"]] = sender = socket_at(f"{lab}-source")
            sender.setsockopt(socket.IPPROTO_IP, socket.IP_MULTICAST_TTL, flow["ttl"])
            sender.setsockopt(socket.IPPROTO_IP, socket.IP_MULTICAST_IF, source)
            sender.bind((flow["source"], 0))
            for host, address in hosts.items():
                receiver = socket_at(f"{lab}-{host}")
                receiver.setsockopt(socket.SOL_SOCKET, socket.SO_REUSEADDR, 1)
                receiver.bind((flow["group"], PORT))
                membership = group + socket.inet_aton(address)
                receiver.setsockopt(socket.IPPROTO_IP, socket.IP_ADD_MEMBERSHIP, membership)
                self.receivers[receiver] = host, flow["group"]

    def run(self, seconds):
        """Sends and hears for so long. Returns the numbers that were sent."""
        first, end = self.number, time.monotonic() + seconds
        while (now := time.monotonic()) < end:
            if now >= self.due:
                for group, sender in self.senders.items():
                    sender.sendto(b"%d" % self.number, (group, PORT))
                self.number, self.due = self.number + 1, now + EVERY
            left = max(0, min(end, self.due) - time.monotonic())
            for it in select.select(list(self.receivers), [], [], left)[0]:
                self.heard[(*self.receivers[it], int(it.recv(2048)))] += 1
        return range(first, self.number)

    def times(self, host, group, numbers):
        """Returns how often a host heard the packets of these numbers: the least often heard one, and the most."""
        counts = [self.heard[host, group, it] for it in numbers]
        return min(counts), max(counts)


# After which command, what the plan says of it, and the numbers of the packets
State = collections.namedtuple("State", "after found gone sent")


class Play:
    """The plans of a site, carried out."""

    def __init__(self, lab, folder, hosts, changes):
        """Takes the names, and the changes that the plan is made after."""
        self.lab, self.folder, self.hosts = lab, folder, hosts
        site = os.path.join(folder, "site")
        flows = [it for it in objects_of(["mcaudit", "audit", site, "--json"]) if "flow" in it]
        self.wanted = {it["group"]: it["wanted"] for it in flows}
        found = objects_of([os.path.join(TOOLS, "mcaudit-plan"), site, "--json", *changes], (0,))
        self.plans = [it for it in found if "plan" in it]
        self.settled = self.wanted.keys() - {it["group"] for it in self.plans}
        self.traffic = Traffic(lab, flows, hosts)

    def wanting(self, group):
        """Returns the hosts that want a group."""
        return [it for it, address in self.hosts.items() if lan_of(address) in self.wanted[group]]

    def carry_out(self, step):
        """Carries out a command, while packets are sent."""
        place = f"{self.lab}-{step['router']}"
        tool, *words = step["command"].split()
        with subprocess.Popen(["ip", "netns", "exec", place, tool, "-i", place, "-u",
                               os.path.join(self.folder, f"{step['router']}.sock"), *words]) as process:
            while process.poll() is None:
                self.traffic.run(EVERY)
        if process.returncode:
            fail(f"{step['router']}: {step['command']}: status {process.returncode}")

    def play(self, plan):
        """Carries out the plan of a flow. Returns its states."""
        self.traffic.run(UNDERWAY)
        states = [State("before", plan["found"], [], self.traffic.run(LASTING))]
        for step in plan["plan"]:
            self.traffic.run(UNDERWAY)
            self.carry_out(step)
            states.append(State(f"{step['router']}: {step['command']}", step["then"], step["gone"],
                                self.traffic.run(LASTING)))
        self.traffic.run(UNDERWAY)
        return states

    def judge_state(self, group, state, first):
        """Judges what came in a state, where first is the one before the plan."""
        lost = set()
        for host in self.wanting(group):
            lan, (least, most) = lan_of(self.hosts[host]), self.traffic.times(host, group, state.sent)
            what = f"{state.after}: then {state.found}; {host} hears a packet {least} to {most} times"
            if (least == 0) != (most == 0):
                fail(f"some are missing: {what}")
            if state.found == "right" and (least, most) != (1, 1) or state.found == f"Missed {lan}" and most:
                fail(what)
            if most == 0 and self.traffic.times(host, group, first.sent)[0]:
                lost.add(lan)
        if lost != {*state.gone}:
            fail(f"{state.after}: {sorted(lost)} lose the stream, by the plan {state.gone}")

    def judge(self, plan, states):
        """Judges what came while the plan of a flow was carried out."""
        group, sent = plan["group"], range(states[0].sent[0], states[-1].sent[-1] + 1)
        for state in states:
            self.judge_state(group, state, states[0])
        mended = next(it for it in states if it.found.split()[0] not in SECOND)
        for host in self.hosts:
            for number in range(mended.sent[0], self.traffic.number):
                if self.traffic.heard[host, group, number] > 1:
                    fail(f"{host} hears packet {number} twice, of {[(it.after, it.sent) for it in states]}")
        for other in self.settled:
            for host in self.wanting(other):
                if self.traffic.times(host, other, sent) != (1, 1):
                    fail(f"{host} does not hear all packets of {other} once: {self.traffic.times(host, other, sent)}")

    def show(self, plan, states):
        """Prints how often hosts heard the packets of each state."""
        for state in states:
            times = {it: self.traffic.times(it, plan["group"], state.sent) for it in self.wanting(plan["group"])}
            counts = " ".join(f"{it} {least}" + f"-{most}" * (least != most) for it, (least, most) in times.items())
            gone = f"; without the stream: {' '.join(state.gone)}" if state.gone else ""
            print(f"{state.after}   # then {state.found}{gone}\n    heard: {counts}", flush=True)

    def run(self):
        """Carries out the plans one after the other."""
        if not self.plans:
            fail("there is none")
        for plan in self.plans:
            print(f"flow {plan['source']} {plan['group']}", flush=True)
            if not plan["plan"] or any(it["by_hand"] for it in plan["plan"]):
                fail(f"nothing to carry out: {plan}")
            states = self.play(plan)
            self.show(plan, states)
            self.judge(plan, states)
            self.settled = {*self.settled, plan["group"]}
            if plan["when_back"]:
                print(f"when what is down is back: {plan['when_back']}")


def main():
    """Plays the plan."""
    if len(sys.argv) < 4:
        raise SystemExit("Usage: plans.py LAB FOLDER HOSTS [CHANGE ...]")
    lab, folder, hosts, *changes = sys.argv[1:]
    Play(lab, folder, dict(it.split("=") for it in hosts.split()), changes).run()


if __name__ == "__main__":
    main()
