"""What routers may do to the facts that are asked of them, and to the sets and sessions that count their packets:
endless answers, facts that are no file, are cut or old, rules without end, sessions that stop, clocks that jump,
counters that wrap. None of it may end in a trace, in a wait without end, in a finding that nobody made, or in a premise
that is said to be looked at and wasn't.
"""
import json
import os
import re
import shutil
import time

from place import TOP, case

BASE = os.path.join(TOP, "tests", "tools", "premises", "two_routers.base")
SET = "20260101T000000Z"
FACTS = """@about
 order little uid 0 kernel x machine y time 1
@ip_mr_vif
 Interface BytesIn PktsIn BytesOut PktsOut Flags Local Remote
 0 eth0 0 0 0 0 00008 00000002 00000000
 1 eth1 0 0 0 0 00008 00000003 00000000
@ip_mr_cache
 Group Origin Iif Pkts Bytes Wrong Oifs
 030201EF 0500000A 0 0 0 0 1:1
"""


def facts_with(section, text):
    """Returns facts with a section more."""
    return f"{FACTS}@{section}\n" + "".join(f" {it}\n" for it in text.split("\n")) + "@end\n"


def judged(place, limit=40):
    """Judges the site of a place, in JSON. Returns the status, and what was found as texts."""
    status = place.run("premises", "--json", "site", limit=limit)
    lines = [json.loads(it) for it in place.said.splitlines() if it.startswith("{")]
    return status, [f"{it['finding']}: {it['router']}: {it['text']}" for it in lines if "finding" in it]


def set_file(place, name, text):
    """Writes a file of the site's set."""
    place.write(os.path.join("site.sets", SET, name), text)


@case
def facts_without_end(place):
    """A router that never stops to answer: the collection ends, and the facts are kept in their bounds."""
    ways = place.routers("r1", "r2")
    place.script("endless", "script=$(cat)\ncase $script in *--facts*) ;; *) echo \"$script\" | R=r1 sh; exit ;; esac\n"
                 "word=${script%%\n*}\necho \"${word#word=} facts\"\necho @nft\nexec yes ' 0123456789'")
    place.site()
    begin = time.monotonic()
    words = "--facts", "--timeout", "9", "--pause", "0", "site", "r1=!endless", ways[1]
    assert place.run("collect", *words) == 0, place.said
    assert time.monotonic() - begin < 38
    text = place.read("site/facts-r1")
    assert text.startswith("@nft\n !") and text.endswith("@end\n") and len(text) < 200, text[:300]


@case
def facts_that_are_no_file(place):
    """Facts that are a pipe, a device, a folder or too large are named, and never waited for."""
    place.site()
    set_file(place, "facts-r2", FACTS + "@end\n")
    for make in (os.mkfifo, os.mkdir, lambda path: os.symlink("/dev/zero", path),
                 lambda path: place.write(path, b"@nft\n" + b" x\n" * (6 << 20))):
        path = place.at("site.sets", SET, "facts-r1")
        make(path)
        status, found = judged(place)
        assert status == 0 and any("not known: r1: facts: " in it and "can't be read" in it for it in found), place.said
        (os.rmdir if os.path.isdir(path) and not os.path.islink(path) else os.unlink)(path)


@case
def rules_without_end(place):
    """Chains that each jump twice to the next one, a million rules and sets in sets: judged in bounds, or not known."""
    place.site()
    chain = {"family": "inet", "table": "f"}
    items = [{"chain": {**chain, "name": "c0", "hook": "forward", "type": "filter", "prio": 0, "policy": "accept"}}]
    for number in range(40):
        jump = {"jump": {"target": f"c{number + 1}"}}
        items += [{"rule": {**chain, "chain": f"c{number}", "expr": [jump]}}] * 2
    match = {"match": {"op": "==", "left": {"payload": {"protocol": "ip", "field": "daddr"}}, "right": "@deep"}}
    items += [{"set": {**chain, "name": "deep", "elem": ["@deep"] * 1000}},
              {"rule": {**chain, "chain": "c0", "expr": [match, {"drop": None}]}}]
    set_file(place, "facts-r1", facts_with("nft", json.dumps({"nftables": items})))
    status, found = judged(place)
    assert status == 0 and any("too many to be judged" in it or "may drop: r1" in it for it in found), place.said


@case
def texts_that_are_no_facts(place):
    """JSON of any shape, long numbers, names with signs: no trace, and nothing is found that wasn't there."""
    place.site()
    deep, long = "[" * 50 + "]" * 50, "9" * 5000
    for section, text in (
            ("nft", deep), ("nft", f'{{"nftables":[{{"chain":{long}}}]}}'), ("nft", '{"nftables":{"a":1}}'),
            ("nft", "NaN"),
            ("nft", '{"nftables":[{"chain":{"family":[],"table":{},"name":3}}]}'), ("mrule", "x:\n0:\n7: not"),
            ("nft", '{"nftables":[{"rule":{"family":"inet","table":"f","chain":"c","expr":[7,null,"x"]}}]}'),
            ("address", "[1,2]"), ("address", '[{"ifname":["x"]}]'), ("routes", "source 10.0.0.5\n[[[1]]]"),
            ("routes", "get 10.0.0.5"), ("routes", "source\nsource x y\n[]][["), ("mdb", '[{"mdb":5}]'),
            ("frr_igmp", '{"eth0":7}'), ("frr_neighbors", '{"eth0":[1]}'), ("raw", "\x1b[2J"), ("settings", " "),
            ("links", "/sys/class/net/eth0/ifindex " + long), ("tc", "qdisc\nqdisc dev eth0"), ("@", "x"),
            ("legacy", "-A FORWARD -s 1.2.3 -j DROP\n-A\n:\n*")):
        set_file(place, "facts-r1", facts_with(section, text))
        status, found = judged(place)
        assert status == 0 and not any(it.startswith("drops") for it in found), (section, text[:60], place.said)
        assert "\x1b" not in place.said


@case
def sets_that_go_meanwhile(place):
    """The set that is judged is removed while mcaudit judges it: status 3, and that is said."""
    place.site()
    place.script("mcaudit", "sleep 1\nrm -rf site.sets/*\nexec false")
    assert place.run("premises", "site") == 3 and "the set was removed meanwhile" in place.said, place.said


def state_of(number):
    """Returns the state of a process, Z of one that is none any more."""
    try:
        with open(f"/proc/{number}/stat", encoding="ascii", errors="replace") as file:
            return file.read().rpartition(") ")[2][:1]
    except OSError:
        return "Z"


def watching(place, *lines):
    """Writes a way to r1 whose session does the lines once it is ready, and returns the arguments of a watch."""
    if not os.path.lexists(place.at("site")):
        place.site()
        place.routers("r1", "r2")
    place.script("session", "read -r word\nword=${word#word=}\necho \"$word ready 1 $$\"\n" + "\n".join(lines))
    return "premises", "--timeout", "4", "--watch", "0,0,0", "site", "r1=!session", "r2=!env R=r2"


@case
def session_without_end(place):
    """A session that never stops to answer is ended by its bytes or its time; the others go on."""
    words = watching(place, "exec yes '@dev'")
    assert place.run(*words) == 3 and "r1: " in place.said, place.said
    assert "the answer has more than" in place.said or "no whole answer in 4 s" in place.said, place.said


@case
def session_that_forges_its_end(place):
    """The end of an answer has a random word: another one is none."""
    words = watching(place, "echo 'mcaudit-00000000000000000000000000000000 end 0'", "exec sleep 30")
    assert place.run(*words) == 3 and "r1: no whole answer in 4 s" in place.said, place.said


@case
def session_that_closes(place):
    """A session that ends within an answer, or before one."""
    for lines in (("echo '@ip_mr_cache'",), ("exec 1>&-", "sleep 30"), ("kill -9 $$",)):
        assert place.run(*watching(place, *lines)) == 3 and "r1: " in place.said, place.said


@case
def watch_that_is_ended(place):
    """TERM is heeded at once, and nothing of a session lives on."""
    words = watching(place, "echo $$ > pid", "sleep 60 & echo $! >> pid", "wait")
    with place.begin(*words[:1], "--timeout", "60", *words[3:]) as running:
        until = time.monotonic() + 60
        while time.monotonic() < until and not os.path.exists(place.at("pid")):
            time.sleep(0.1)
        running.terminate()
        begin = time.monotonic()
        said = running.communicate(timeout=30)[0]
        assert running.returncode == 3 and time.monotonic() - begin < 10, (running.returncode, said)
    for number in place.read("pid").split():
        assert state_of(number) == "Z", number


# What was not looked at is never said to be

def good_site(place):
    """Makes a set whose facts contradict nothing, of the cases' example. Returns the facts of r1."""
    place.site()
    with open(BASE, encoding="ascii") as file:
        sections = re.split(r"^== (?:set/)?(.*) ==\n", file.read(), flags=re.MULTILINE)
    texts = {name: text for name, text in zip(sections[1::2], sections[2::2]) if text}
    for name, text in texts.items():
        set_file(place, name, text)
    return texts["facts-r1"]


def looked_at(place):
    """Judges the site. Returns the kinds that are said to be looked at on r1, and the words of what was found."""
    status = place.run("premises", "--json", "site")
    lines = [json.loads(it) for it in place.said.splitlines() if it.startswith("{")]
    assert status in (0, 1) and lines, place.said
    kinds = {kind for it in lines for kind, routers in it.get("looked_at", {}).items() if "r1" in routers}
    return kinds, [it["finding"] for it in lines if "finding" in it]


KINDS = {"rp_filter", "links", "MTU", "netfilter", "ip mrule"}


@case
def facts_cut_anywhere(place):
    """Facts that end too soon, at any place, are none that were looked at."""
    text = good_site(place)
    assert looked_at(place) == (KINDS, []), place.said
    for end in range(0, len(text) - 1, len(text) // 30):
        set_file(place, "facts-r1", text[:end])
        kinds, found = looked_at(place)
        assert not kinds and "drops" not in found, (end, place.said)


@case
def facts_that_lack_a_line(place):
    """Each line that decides is one without which its premise isn't known."""
    text = good_site(place)
    lines = text.splitlines(True)
    for line in lines:
        path, kind = line.split()[0], None
        if path.startswith("/sys/class/net/"):
            kind = {"mtu": "MTU", "operstate": None}.get(path.rpartition("/")[2], "links")
        elif path.endswith(("/eth0/rp_filter", "/all/rp_filter")) or line.startswith((" source", ' [{"dst"')):
            kind = "rp_filter"
        elif path.endswith("/eth0/mc_forwarding"):
            kind = "links"
        elif path in ("@mrule", "32767:"):
            kind = "ip mrule"
        elif path in ("@nft", "!not", "@legacy", "order"):
            kind = "netfilter"
        if kind is not None:
            set_file(place, "facts-r1", "".join(it for it in lines if it is not line))
            kinds, found = looked_at(place)
            assert kind not in kinds and "not known" in found and "drops" not in found, (line, place.said)


@case
def facts_of_another_time(place):
    """Facts that are older than the tables, or of a time to come, show nothing of them: what they have may drop."""
    text = good_site(place)
    set_file(place, "facts-r1", text.replace("eth0/flags 0x1003", "eth0/flags 0x1002"))
    assert looked_at(place) == (KINDS, ["drops"]), place.said
    for later, why in ((-7200, "s older than its tables"), (7200, "of a later time than now")):
        when = time.time() + later
        os.utime(place.at("site.sets", SET, "facts-r1"), (when, when))
        kinds, found = looked_at(place)
        assert not kinds and "may drop" in found and "drops" not in found and why in place.said, place.said


@case
def facts_of_another_byte_order(place):
    """A router that tells a wrong byte order has no row that could be judged: that is named."""
    text = good_site(place)
    set_file(place, "facts-r1", text.replace("order little", "order big"))
    kinds, found = looked_at(place)
    assert not kinds and "not known" in found, place.said


@case
def facts_before_that_are_no_file(place):
    """What stands in the place of earlier facts is never waited for, neither when they are judged nor collected."""
    good_site(place)
    for make in (os.mkfifo, lambda path: os.symlink("/dev/zero", path), lambda path: os.symlink("nowhere", path)):
        for name in ("earlier-r1", "facts-r1"):
            path = place.at("site.sets", SET, name)
            if os.path.lexists(path):
                os.unlink(path)
            make(path)
        assert not looked_at(place)[0], place.said
        site, before = place.at("site"), os.readlink(place.at("site"))
        ways = place.routers("r1", "r2")
        assert place.run("collect", "--facts", "--pause", "0", "site", *ways) == 0, place.said
        assert place.read("site/facts-r1").endswith("@end\n") and not os.path.lexists(place.at("site", "earlier-r1"))
        os.unlink(site)
        os.symlink(before, site)


@case
def facts_of_very_many_lines(place):
    """Facts of millions of lines are named, in little time and memory."""
    text = good_site(place)
    set_file(place, "facts-r1", text.replace("@links\n", "@links\n" + " x\n" * 4_000_000))
    begin = time.monotonic()
    assert not looked_at(place)[0] and "lines" in place.said, place.said
    assert time.monotonic() - begin < 20


# Sets

def facts_of_boot(facts, boot, vifs, rows):
    """Returns the facts with another boot, and with these tables."""
    facts = re.sub("^ order .*", f" order little uid 0 boot {boot}", facts, flags=re.MULTILINE)
    for section, text in (("ip_mr_vif", vifs), ("ip_mr_cache", rows)):
        section = f"@{section}\n"
        facts = re.sub(section + "( .*\n)*", section + "".join(f" {it}\n" for it in text.splitlines()), facts)
    return facts.replace("@end\n", "@snmp\n@netstat\n@dev\n@end\n")


def sets_of(place, numbers, boots=None, when=None):
    """Makes four sets whose rows counted these numbers on r1 and r2, at these boots and times."""
    good_site(place)
    files = {name: place.read(f"site/{name}") for name in os.listdir(place.at("site")) if "facts" not in name}
    facts = place.read("site/facts-r1")
    os.unlink(place.at("site"))
    for number, counted in enumerate(numbers):
        name, at = f"2026010{number + 2}T000000Z", (when or [1767225600 + 20 * it for it in range(4)])[number]
        told = {}
        for router, count in zip(("r1", "r2"), counted):
            vifs = f"Interface\n 0 eth0 0 {count} 0 0 00008 00000002 00000000\n"
            vifs += f" 1 eth1 0 0 0 {count} 00008 00000003 00000000\n"
            row = f"Group\n030201EF 0500000A 0 {count} {count} 0 1:1\n"
            files.update({f"vif-{router}": vifs, f"cache-{router}": row})
            told.update({f"{kind}-{router}": {"by": "collect", "of": router, "time": at} for kind in ("vif", "cache")})
            if boots is not None:
                files[f"facts-{router}"] = facts_of_boot(facts, boots[number], vifs, row)
                told[f"facts-{router}"] = {"by": "collect", "of": router, "time": at}
        for it, text in files.items():
            place.write(os.path.join("site.sets", name, it), text)
            os.utime(place.at("site.sets", name, it), (at, at))
        place.write(os.path.join("site.sets", name, "collected.json"), json.dumps({"version": 2, "files": told}))
    os.symlink(f"site.sets/{name}", place.at("site"))


def said_of(place, *numbers, **how):
    """Judges four such sets. Returns the words of what is found of packets, and how many rows were not judged."""
    for it in os.listdir(place.folder):
        path = place.at(it)
        (os.unlink if os.path.islink(path) or os.path.isfile(path) else shutil.rmtree)(path)
    sets_of(place, numbers, **how)
    place.run("premises", "--json", "site")
    lines = [json.loads(it) for it in place.said.splitlines() if it.startswith("{")]
    return ([it["finding"] for it in lines if it.get("kind") == "packets"], sum("unjudged" in it for it in lines),
            any(it.get("packets", {}).get("looked_at") for it in lines))


@case
def sets_of_counters_that_wrap(place):
    """A counter of 32 bits that begins anew is no loss: the row isn't judged."""
    most = 1 << 32
    assert said_of(place, (0, 0), (100, 100), (400, 400), (500, 500)) == ([], 0, True), place.said
    assert said_of(place, (0, most - 200), (100, most - 100), (400, 200), (500, 300)) == ([], 1, True), place.said
    assert said_of(place, (most - 200, 0), (most - 100, 100), (200, 400), (300, 500)) == ([], 1, True), place.said
    top = (1 << 64) - 1
    assert said_of(place, (0, top), (100, top), (400, top), (500, top)) == (["none comes"], 0, True), place.said


@case
def sets_between_which_a_router_booted(place):
    """A router that was booted between two sets isn't judged, also where it has counted further than before."""
    one, other = (f"{it}{it}-{it}-{it}-{it}-{it}".ljust(36, it) for it in "ab")
    rises = (0, 50), (100, 60), (400, 65), (500, 70)
    assert said_of(place, *rises, boots=[one] * 4) == (["lost"], 0, True), place.said
    for booted in ([one, other, other, other], [one, one, other, other], [one, one, one, other]):
        found, unjudged, _ = said_of(place, *rises, boots=booted)
        assert not found and unjudged == 2 and "it was booted meanwhile" in place.said, place.said
    assert said_of(place, (0, 50), (100, 60), (400, 5), (500, 10)) == ([], 1, True), place.said


@case
def sets_of_a_clock_that_jumps(place):
    """Sets are rounds only in the order of their times, each after the one before; a time to come is none."""
    rises = (0, 0), (100, 0), (400, 0), (500, 0)
    assert said_of(place, *rises) == (["none comes"], 0, True), place.said
    for when in ((1767225600, 1767225580, 1767225560, 1767225540), (1767225600, 1767225600, 1767225600, 1767225600),
                 (1767225600, 1767225500, 1767225700, 1767225800)):
        assert said_of(place, *rises, when=when) == ([], 0, False), place.said
    ahead = int(time.time()) + 86400
    found, _, is_seen = said_of(place, *rises, when=(1767225600, 1767225620, 1767225640, ahead))
    assert found in ([], ["none comes"]) and is_seen == bool(found), place.said


@case
def daemons_that_say_anything(place):
    """What FRR says is taken of a bounded depth, and named where it is none; a daemon that doesn't run says nothing."""
    text = good_site(place)
    for told, word in (("[" * 40 + "]" * 40, "not known"), ('{"eth0":' * 40 + "1" + "}" * 40, "not known"),
                       ("!too large", "not known"), ("7", "not known"), ("pimd is not running\n !1", None),
                       ('{"eth0":{"mtraceOnly":true}}', "beside"), ('{"eth0":{},"eth1":{}}', None)):
        set_file(place, "facts-r1", text.replace("@end\n", f"@frr_igmp\n {told}\n@end\n"))
        kinds, found = looked_at(place)
        assert kinds == KINDS and found == ([word] if word else []), (told[:40], place.said)
