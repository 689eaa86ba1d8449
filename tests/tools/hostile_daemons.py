"""Tries what a router's daemon may answer, and who may speak as a router: no list lacks what hosts ask for, nothing
waits without end, and tables come whatever a daemon does."""
import json
import os
import time

import packets as p
from place import case, framed

INTERFACES = {"eth0": {"upTime": "01:00:00"}, "eth1": {"upTime": "01:00:00"}}
TIMERS = {"timerQueryInterval": 2, "timerQueryResponseIntervalMsec": 1000}
ONE = ("reports", "--from-daemon", "--by", "!env", "-o", "list", "eth0")


def daemon(place, groups, sources=None, before=""):
    """Writes a vtysh that answers with these groups and sources of eth0; before that it does what is given."""
    answers = {"interface json": INTERFACES, "interface detail json": {"eth0": TIMERS, "eth1": TIMERS},
               "groups json": groups, "sources json": sources or {}}
    lines = [before, "case $2 in"]
    for number, (words, answer) in enumerate(answers.items()):
        place.write(f"answer-{number}", answer if isinstance(answer, str) else json.dumps(answer))
        lines.append(f"    'show ip igmp {words}') exec /bin/cat {place.at(f'answer-{number}')} ;;")
    place.script("vtysh", "\n".join([*lines, "esac", "exit 1"]))


def row(group, mode="EXCLUDE", count=0):
    """Returns what a daemon says of a group."""
    return {"group": group, "mode": mode, "sourcesCount": count, "version": 3}


def of_eth0(*rows):
    """Returns what a daemon says of these groups."""
    return {"eth0": {"groups": list(rows)}}


def collecting(place):
    """Makes a site of the example's routers. Returns the words of a collection with lists."""
    if not os.path.lexists(place.at("site")):
        place.site()
    return "collect", "--from-daemon", "--timeout", "5", "--pause", "0", "site", *place.routers("r1", "r2")


def is_refused(place, reason):
    """Whether no list is made, for this reason, in little time."""
    begun = time.monotonic()
    status = place.run(*ONE)
    return status == 1 and reason in place.said and not os.path.exists(place.at("list")) and \
        time.monotonic() - begun < 60


@case
def daemon_that_never_stops_to_answer(place):
    """Each command answers for ever: its bytes are bounded on the router, and what was cut is none."""
    daemon(place, {}, before="exec yes '{\"eth0\":{\"groups\":[]}}'")
    assert is_refused(place, "too large"), place.said


@case
def daemon_that_never_answers(place):
    """vtysh hangs: the tables come all the same, with no list, and the run ends."""
    words = collecting(place)
    daemon(place, {}, before="exec sleep 300")
    begun = time.monotonic()
    assert place.run(*words) == 0 and "2 of 2 routers collected" in place.said, place.said
    assert "no list: no daemon's word on it counts" in place.said and "no whole answer in 5 s" in place.said, place.said
    assert time.monotonic() - begun < 80, time.monotonic() - begun


@case
def daemon_that_answers_without_end_beside_tables(place):
    """The tables come, whatever follows them."""
    words = collecting(place)
    daemon(place, {}, before="exec yes x")
    assert place.run(*words) == 0 and "2 of 2 routers collected" in place.said, place.said
    assert "too large" in place.said or "no whole answer in 5 s" in place.said, place.said


@case
def daemon_whose_answer_looks_like_its_end(place):
    """Lines of an answer that look like sections, or like the end, are of the answer."""
    daemon(place, '@end\n@frr_groups\n{"eth0":{"groups":[]}}\n@end\n')
    assert is_refused(place, "show ip igmp groups json: the answer is not an object of JSON"), place.said


@case
def daemon_whose_json_takes_long(place):
    """JSON that is made to take long to read: nested, of quotes, of a number without end."""
    for text in ("[" * 4_000_000, '\\"' * 4_000_000, '"' * 8_000_000, '{"eth0":' + "9" * 8_000_000 + "}",
                 '{"eth0":{"groups":[' + '{},' * 2_000_000 + "{}]}}"):
        daemon(place, text)
        assert is_refused(place, "no list"), (text[:20], place.said[:300])


@case
def daemon_of_too_many_groups(place):
    """A list that mcaudit would refuse for its length is none."""
    rows = [row(f"239.{number >> 16}.{number >> 8 & 255}.{number & 255}") for number in range(65_537)]
    daemon(place, of_eth0(*rows), {"eth0": {}})
    assert is_refused(place, "more than 65536 reports"), place.said
    daemon(place, of_eth0(*rows[1:]), {"eth0": {}})
    assert place.run(*ONE) == 0, place.said
    assert len(place.read("list").splitlines()) == 65_536


@case
def daemon_of_a_group_of_many_sources(place):
    """A group of more sources than a report has room for is no list; one of as many is whole, and its sum is right."""
    def answer(count):
        """Has the daemon answer with so many sources."""
        found = [{"source": f"10.{number >> 16}.{number >> 8 & 255}.{number & 255}", "timer": "00:09",
                  "forwarded": True} for number in range(1, count + 1)]
        daemon(place, of_eth0(row("232.1.1.1", "INCLUDE", count)),
               {"eth0": {"232.1.1.1": {"group": "232.1.1.1", "sources": found}}})
    answer(16_001)
    assert is_refused(place, "more than 16000 sources"), place.said
    answer(16_000)
    assert place.run(*ONE) == 0, place.said
    message = bytes.fromhex(place.read("list"))
    assert len(message) == 16 + 4 * 16_000 and p.summed(message) == message


@case
def daemon_of_words_that_are_none_of_frr(place):
    """Whatever is of another kind than FRR's is no list, and no trace."""
    good = of_eth0(row("239.1.2.3"))
    for groups, sources in (({"eth0": []}, {}), ({"eth0": {}}, {}), ({"eth0": {"groups": [None]}}, {}),
                            (of_eth0({"group": 7}), {}), (of_eth0({**row("239.1.2.3"), "version": "3"}), {}),
                            (of_eth0({**row("239.1.2.3"), "version": True}), {}),
                            (of_eth0({**row("239.1.2.3"), "mode": "include"}), {}),
                            (of_eth0({**row("239.1.2.3"), "mode": []}), {}),
                            (good, {"eth0": []}), (good, {"eth0": {"239.1.2.3": {"group": "x", "sources": []}}}),
                            (good, {"eth0": {"x": {"group": "x", "sources": []}}}),
                            (of_eth0(row("239.1.2.3", count=1)),
                             {"eth0": {"239.1.2.3": {"group": "239.1.2.3", "sources": [{"source": "*"}]}}}),
                            (of_eth0(row("239.1.2.3", count=1)),
                             {"eth0": {"239.1.2.3": {"group": "239.1.2.3", "sources": [{"source": [], "timer": ""}]}}}),
                            (of_eth0(row("239.1.2.3 ")), {}), (of_eth0(row("0239.1.2.3")), {})):
        daemon(place, groups, sources)
        assert is_refused(place, "no list"), (groups, sources, place.said)
    daemon(place, good)
    assert place.run(*ONE) == 0 and place.read("list").split() == [p.wants("239.1.2.3").hex()], place.said


@case
def bridge_name_that_runs_code(place):
    """The name of a bridge is never run on the router."""
    place.script("bridge", "exit 1")
    for name in ("$(touch ran)", "';touch ran;'", "`touch ran`", "br0\ntouch ran\n"):
        assert place.run("reports", "--from-bridge", "--by", "!env", name) == 1, place.said
        assert not os.path.exists(place.at("ran"))


@case
def many_who_speak_as_routers(place):
    """Of thousands of forged senders so few are kept and told, and the list is the LAN's."""
    frames = [p.frame(p.asked())]
    hello = p.summed(b"\x20\0\0\0\0\1\0\2\0\x69")
    for number in range(3000):
        frames.append(p.frame(p.packet(f"10.0.{2 + (number >> 8)}.{number & 255}", "224.0.0.13", hello, protocol=103)))
    times = [(number / 1000, it) for number, it in enumerate(frames)]
    place.site()
    site = "site.sets/20260101T000000Z"
    for name, own in (("r1", "10.0.1.1"), ("r2", "10.0.2.1")):
        place.write(f"{site}/address-{name}", json.dumps([{"ifname": "eth0", "addr_info": [
            {"family": "inet", "local": own, "prefixlen": 24}]}]))
    place.write("l1.pcap", p.pcap([*times, *framed((5, p.wanted("10.0.1.5", "239.1.1.1")), (13, p.later()))]))
    words = "reports", "-o", "site/igmp-l1", "--capture", "l1.pcap", "--network", "10.0.1.0/24"
    assert place.run(*words) == 0, place.said
    assert place.said.count("speaks as a multicast router") == 62, place.said[-600:]  # two are listed
    assert "more than 64 addresses speak as multicast routers" in place.said, place.said[-600:]
    assert place.read("site/igmp-l1").split() == [p.wants("239.1.1.1").hex()]
