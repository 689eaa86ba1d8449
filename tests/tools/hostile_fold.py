"""Tries lists of LANs where hosts join and leave meanwhile: what each wants at the end is in the list, whatever others
send in its name; and where that isn't known there is no list."""
import os
import random

import packets as p
from place import case

QUERY, END = (0, p.frame(p.asked(), sender=9)), (13, p.frame(p.later(), sender=9))  # the answers' time ends at 11
IS_IN, IS_EX, TO_IN, TO_EX, ALLOW, BLOCK = range(1, 7)
G, H, S, T = "239.1.1.1", "239.2.2.2", "10.0.0.5", "10.0.0.6"


def says(at, host, *records, sender=None):
    """Returns the frame of a report of version 3, of the host of this number, at this time."""
    return at, p.frame(p.packet(sender or f"10.0.1.{host}", p.ROUTERS, p.report(*records)), sender=host)


def rec(kind, *sources, group=G):
    """Returns a record of a group."""
    return p.record(kind, group, *sources)


def old(at, host, kind, group=G, **how):
    """Returns the frame of a message of version 1 or 2: a report, or a leave."""
    target = "224.0.0.2" if kind == 0x17 else group
    message = p.summed(bytes([kind, 0, 0, 0]) + p.address(group))
    return at, p.frame(p.packet(how.get("sender", f"10.0.1.{host}"), target, message), sender=host)


def asks(at, *sources, code=10, sender="10.0.1.1", version=3, **how):
    """Returns the frame of the querier's query of the group, or of its sources."""
    body = bytes([0x11, code, 0, 0]) + p.address(G)
    if version == 3:
        body += b"\x02\x7d" + len(sources).to_bytes(2, "big") + b"".join(map(p.address, sources))
    return at, p.frame(p.packet(sender, how.pop("target", G), p.summed(body), ttl=how.pop("ttl", 1)), sender=9, **how)


def state(kind, *sources, group=G):
    """Returns the line of a list that says so of a group."""
    return p.report(p.record(kind, group, *sources)).hex()


def listed(place, *frames, words=("--fold",)):
    """Returns the list's lines that come of these frames between the query and the end; None without a list."""
    if os.path.exists(place.at("list")):
        os.unlink(place.at("list"))
    status, lines = place.captured([QUERY, *sorted(frames, key=lambda it: it[0]), END], *words)
    assert (status == 0) == (lines is not None), (status, place.said)
    place.status = status
    return lines


# Changes are followed

@case
def changes_of_each_kind(place):
    """Each changes what its host wants of the group, and nothing else."""
    for records, expected in (
            ([rec(TO_EX)], [state(IS_EX)]), ([rec(TO_EX, S)], [state(IS_EX, S)]), ([rec(ALLOW, S)], [state(IS_IN, S)]),
            ([rec(IS_EX), rec(TO_IN)], []), ([rec(IS_EX), rec(TO_IN, S)], [state(IS_IN, S)]),
            ([rec(IS_EX), rec(BLOCK, S)], [state(IS_EX, S)]), ([rec(IS_EX, S), rec(ALLOW, S)], [state(IS_EX)]),
            ([rec(IS_EX, S), rec(BLOCK, T)], [state(IS_EX, S, T)]), ([rec(IS_EX, S), rec(TO_EX, T)], [state(IS_EX, T)]),
            ([rec(IS_IN, S), rec(ALLOW, T)], [state(IS_IN, S, T)]),
            ([rec(IS_IN, S, T), rec(BLOCK, S)], [state(IS_IN, T)]),
            ([rec(IS_IN, S), rec(BLOCK, S)], []), ([rec(IS_IN, S), rec(TO_IN, T)], [state(IS_IN, T)]),
            ([rec(IS_IN, S), rec(TO_EX)], [state(IS_EX)]), ([rec(BLOCK, S), rec(IS_EX, S)], [state(IS_EX, S)]),
            ([rec(ALLOW, T), rec(IS_EX, S)], [state(IS_EX, S)])):
        frames = [says(1 + turn, 5, it) for turn, it in enumerate(records)]
        other = says(1, 6, rec(IS_EX, group=H)), state(IS_EX, group=H)
        assert listed(place, *frames, other[0]) == [*expected, other[1]], (records, place.said)


@case
def changes_without_folding(place):
    """They are refused, as mcaudit refuses them."""
    assert listed(place, says(1, 5, rec(TO_EX)), words=()) is None and place.status == 2, place.said
    assert "record 1 reports a change" in place.said


@case
def list_without_a_change(place):
    """It has what came, byte for byte, also where an address has two hardware addresses."""
    report = rec(IS_EX), rec(IS_IN, S, T, group=H)
    twice = says(2, 6, rec(IS_EX, group=H), sender="10.0.1.5")
    lines = listed(place, says(1, 5, *report), twice)
    assert lines == [p.report(*report).hex(), state(IS_EX, group=H)] and "changes" not in place.said, place.said


@case
def hosts_of_one_group(place):
    """Each has its own state: one that leaves takes nothing from another, also of the same hardware address."""
    for number in (6, 5):
        frames = says(1, 5, rec(IS_EX)), says(2, number, rec(IS_EX), sender="10.0.1.6"), says(3, 5, rec(TO_IN))
        assert listed(place, *frames) == [state(IS_EX)], place.said
        assert "changes 1: reports in the list 1" in place.said, place.said


@case
def text_with_and_without_links(place):
    """Only one with link headers is followed."""
    frames = [QUERY, says(1, 5, rec(IS_EX)), says(2, 6, rec(TO_EX, group=H)), END]
    found = place.reports("--fold", "--text", text=p.text((), frames))
    assert found == (0, [state(IS_EX), state(IS_EX, group=H)]), place.said
    place.write("list", "kept\n")
    text = p.text([(at, it[14:]) for at, it in frames])
    assert place.reports("--fold", "--text", text=text) == (2, ["kept"]), place.said
    only = "changes are followed only where link headers (tcpdump -e) show whose they are"
    assert only in place.said, place.said
    raw = p.pcap([(at, it[14:]) for at, it in frames], 101)
    assert place.captured((), "--fold", file=raw) == (2, ["kept"]) and only in place.said, place.said
    cooked = p.pcap([(at, p.cooked_2(it[14:], 3, sender=it[6:12])) for at, it in frames], 276)
    assert place.captured((), "--fold", file=cooked) == found, place.said


@case
def all_have_left(place):
    """The list would be empty: it takes --empty, as one that nobody answers."""
    frames = says(1, 5, rec(IS_EX)), says(3, 5, rec(TO_IN))
    assert listed(place, *frames) is None and place.status == 1 and "any more" in place.said, place.said
    assert listed(place, *frames, words=("--fold", "--empty")) == [], place.said


# What may have been forged

@case
def forged_change_that_is_answered(place):
    """The querier asks, and the host's answer restores what it wants, also with those sources alone that were asked
    for."""
    for before, forged, answer, after in (
            (rec(IS_EX), rec(TO_IN), rec(IS_EX), state(IS_EX)),
            (rec(IS_IN, S), rec(BLOCK, S), rec(IS_IN, S), state(IS_IN, S)),
            (rec(IS_EX), rec(BLOCK, S), rec(IS_IN, S), state(IS_EX)),
            (rec(IS_EX), rec(TO_EX, S), rec(IS_IN, S), state(IS_EX)),
            (rec(IS_IN, S, T), rec(TO_IN), rec(IS_IN, S, T), state(IS_IN, S, T))):
        for at in (2.5, 3.9, 8):
            frames = says(1, 5, before), says(2, 5, forged), asks(2.1), says(at, 5, answer)
            assert listed(place, *frames) == [after], (at, place.said)


@case
def forged_change_of_another_hardware_address(place):
    """Whether it came first or last: there is no list, since one of the two isn't the host."""
    for forged in (rec(TO_IN), rec(BLOCK, S), rec(TO_EX, S), rec(ALLOW, S)):
        for at in (0.5, 2):
            frames = says(1, 5, rec(IS_EX)), says(at, 66, forged, sender="10.0.1.5")
            assert listed(place, *frames) is None and place.status == 1, (at, place.said)
            assert "10.0.1.5 has two hardware addresses, 02:00:00:00:00:" in place.said, place.said
    leave = old(3, 66, 0x17, sender="10.0.1.5")
    assert listed(place, old(1, 5, 0x16), leave) is None and "two hardware addresses" in place.said, place.said


@case
def change_of_another_host(place):
    """It takes nothing from the first one, whose address it doesn't have."""
    for forged in (rec(TO_IN), rec(BLOCK, S), rec(TO_EX, S)):
        frames = says(1, 5, rec(IS_EX)), says(2, 66, forged)
        assert state(IS_EX) in listed(place, *frames), place.said


@case
def forged_change_that_the_querier_does_not_hear(place):
    """It was sent to this machine alone, so nobody asks whether it is so: what was wanted is in the list."""
    for mac in (p.hardware(66), bytes([1, 0, 0x5E, 0, 0, 1])):
        hidden = 2, p.frame(p.packet("10.0.1.5", p.ROUTERS, p.report(rec(TO_IN))), mac, sender=5)
        assert listed(place, says(1, 5, rec(IS_EX)), hidden) == [state(IS_EX)], place.said
        assert "10.0.1.5 no longer wants 239.1.1.1, or less of it" in place.said, place.said
        leave = p.packet("10.0.1.5", "224.0.0.2", p.summed(b"\x17\0\0\0" + p.address(G)))
        kept = [p.summed(b"\x16\0\0\0" + p.address(G)).hex()]
        for second in (asks(3.1), old(2, 5, 0x17)):
            assert listed(place, old(1, 5, 0x16), (3, p.frame(leave, mac, sender=5)), second) == kept, place.said


@case
def hosts_without_an_address(place):
    """What 0.0.0.0 wants counts, of however many hosts; where it wants less there is no list."""
    none = {"sender": "0.0.0.0"}
    joined = says(1, 5, rec(IS_EX), **none), says(2, 6, rec(TO_EX), **none)
    assert listed(place, *joined) == [state(IS_EX)] * 2, place.said
    assert listed(place, says(1, 5, rec(TO_EX), **none), says(2, 5, rec(ALLOW, S, group=H), **none)) == [
        state(IS_EX), state(IS_IN, S, group=H)], place.said
    for forged in (rec(TO_IN), rec(BLOCK, S), rec(TO_EX, S)):
        assert listed(place, *joined, says(3, 6, forged, **none)) is None and place.status == 1, place.said
        assert "0.0.0.0 no longer wants 239.1.1.1" in place.said, place.said
    group = "224.0.0.106"
    frames = says(1, 5, rec(IS_EX, group=group), **none), says(3, 5, rec(TO_IN, group=group), **none), joined[1]
    assert listed(place, *frames) == [state(IS_EX)], place.said
    leaves = old(1, 5, 0x16, **none), old(3, 5, 0x17, **none), asks(3.1)
    assert listed(place, *leaves) is None and "0.0.0.0 no longer wants" in place.said, place.said


@case
def changes_at_the_windows_end(place):
    """What is left in the last 2 s is in the list all the same, and what is joined too."""
    for at, is_kept in ((8.9, False), (9, False), (9.1, True), (10.5, True), (10.99, True)):
        frames = says(1, 5, rec(IS_EX)), says(at, 5, rec(TO_IN)), says(2, 6, rec(IS_EX, group=H))
        assert listed(place, *frames) == [state(IS_EX)] * is_kept + [state(IS_EX, group=H)], (at, place.said)
        assert ("10.0.1.5 no longer wants 239.1.1.1, or less of it" in place.said) is is_kept, place.said
    for before, change, after in (
            (rec(IS_IN, S), rec(TO_IN, T), state(IS_IN, S, T)), (rec(IS_EX), rec(TO_IN, S), state(IS_EX)),
            (rec(IS_EX, S), rec(TO_EX, T), state(IS_EX)), (rec(IS_EX), rec(BLOCK, S), state(IS_EX)),
            (rec(IS_IN, S, T), rec(TO_EX, S), state(IS_EX)), (rec(IS_EX), rec(ALLOW, S), state(IS_EX))):
        assert listed(place, says(1, 5, before), says(10, 5, change)) == [after], (after, place.said)
    assert listed(place, says(10.9, 5, rec(TO_EX))) == [state(IS_EX)], place.said


@case
def change_that_is_sent_twice(place):
    """A repeated one counts from the first: hosts send each twice."""
    frames = says(1, 5, rec(IS_EX)), says(8.5, 5, rec(TO_IN)), says(9.4, 5, rec(TO_IN)), says(2, 6, rec(IS_EX, group=H))
    assert listed(place, *frames) == [state(IS_EX, group=H)], place.said


@case
def answer_in_several_reports(place):
    """A host of many sources answers in parts: none takes the place of the one before."""
    some = [f"10.0.{it >> 8}.{it & 255}" for it in range(2, 340)]
    frames = says(1, 5, rec(IS_IN, *some[:170])), says(1, 5, rec(IS_IN, *some[170:])), says(2, 6, rec(TO_EX, group=H))
    assert listed(place, *frames) == [state(IS_IN, *some), state(IS_EX, group=H)], place.said


# Versions 1 and 2

@case
def leave_of_version_2(place):
    """It counts from whoever reported the group last, once the querier has asked for it and nobody answered."""
    report, leave, other = old(1, 5, 0x16), old(3, 5, 0x17), says(2, 6, rec(IS_EX, group=H))
    first, kept, gone = *([p.summed(bytes([it, 0, 0, 0]) + p.address(G)).hex()] for it in (0x12, 0x16)), []
    for frames, expected in (
            ([], kept), ([asks(3.1)], gone), ([asks(3.1, version=2)], gone), ([asks(3.1), old(3.5, 7, 0x16)], kept),
            ([asks(3.1), old(5.05, 7, 0x16)], kept), ([asks(3.1), asks(4.1), old(5.5, 7, 0x16)], kept),
            ([old(2, 7, 0x16), asks(3.1)], kept), ([old(2, 7, 0x12), asks(3.1)], kept + first),
            ([old(0.8, 7, 0x12), asks(3.1)], kept + first), ([asks(2.9)], kept),
            ([asks(3.1, S)], kept), ([asks(9.1)], kept), ([asks(8.9)], gone), ([asks(3.1, code=90)], kept)):
        lines = listed(place, report, leave, other, *frames)
        assert {*lines} == {state(IS_EX, group=H), *expected}, (frames, lines, place.said)
    for at, expected in ((8.9, gone), (9.1, kept)):  # 2 s of the window come after it
        frames = report, old(at, 5, 0x17), asks(at + 0.05, code=1), other
        assert {*listed(place, *frames)} == {state(IS_EX, group=H), *expected}, (at, place.said)


@case
def leave_of_version_2_that_is_told(place):
    """Where nobody asked, the group that was left is named."""
    assert len(listed(place, old(1, 5, 0x16), old(3, 5, 0x17))) == 1
    assert "10.0.1.5 left 239.1.1.1, and no query for it was left unanswered" in place.said, place.said


@case
def query_of_a_group_that_a_host_forged(place):
    """One that the members don't hear, or that isn't the querier's, ends no group."""
    kept = [p.summed(b"\x16\0\0\0" + p.address(G)).hex()]
    for forged in (asks(3.1, mac=p.hardware(66)), asks(3.1, mac=bytes([1, 0, 0x5E, 0, 0, 1])), asks(3.1, ttl=2),
                   asks(3.1, target="224.0.0.1"), asks(3.1, target=H), asks(3.1, sender="10.0.1.66")):
        assert listed(place, old(1, 5, 0x16), old(3, 5, 0x17), forged) == kept, (forged, place.said)


@case
def query_whose_time_versions_read_differently(place):
    """The longer one counts: hosts of version 2 take a code of 0 for 10 s, and one of 130 for 13 s."""
    kept = [p.summed(b"\x16\0\0\0" + p.address(G)).hex()]
    for code in (0, 90, 128, 130):
        assert listed(place, old(1, 5, 0x16), old(2, 5, 0x17), asks(2.1, code=code)) == kept, (code, place.said)


@case
def leaves_without_number(place):
    """So many that none is followed any more: a group that was left is in the list all the same."""
    flood = [old(2 + turn / 1e4, 66, 0x17, H) for turn in range(5000)]
    lines = listed(place, old(1, 5, 0x16), *flood, old(3, 5, 0x17), asks(3.1))
    assert lines == [p.summed(b"\x16\0\0\0" + p.address(G)).hex()], place.said[:999]


# The end of the window, the clock, and bounds

@case
def answer_after_the_window(place):
    """One to the querier's query of its group is no sign that answers came late; any other one still is."""
    left = says(1, 5, rec(IS_EX)), says(1.5, 6, rec(IS_EX)), says(10.5, 6, rec(TO_IN)), asks(10.6)
    assert listed(place, *left, says(11.3, 5, rec(IS_EX))) == [state(IS_EX)] * 2, place.said
    assert listed(place, *left, asks(11.6), says(12.2, 5, rec(IS_EX))) == [state(IS_EX)] * 2, place.said
    for late in (says(11.3, 5, rec(IS_EX, group=H)), says(12.9, 5, rec(IS_EX))):
        assert listed(place, *left, late) is None and "came late" in place.said, place.said
    forged = asks(10.6, sender="10.0.1.66")
    assert listed(place, *left[:3], forged, says(11.3, 5, rec(IS_EX))) is None and "came late" in place.said


@case
def second_list_after_a_change_of_nobody(place):
    """What a try spoils the next one may have."""
    place.script("ip", 'echo "    inet 10.0.1.9/24 scope global l1"')
    none = {"sender": "0.0.0.0"}
    first = [(0, p.frame(p.asked(tenths=10), sender=9)), says(0.1, 5, rec(IS_EX), **none),
             says(0.2, 5, rec(TO_IN), **none)]
    place.write("window1", p.pcap(first))
    place.write("window2", p.pcap([first[0], first[1], says(0.3, 6, rec(TO_EX, group=H))]))
    place.script("tcpdump", 'echo "listening on l1" >&2; trap "echo 3 packets captured >&2; exit 0" TERM\n'
                 'if [ -f tried ]; then cat window2; else : > tried; cat window1; fi\nwhile :; do sleep .1; done')
    assert place.reports("--fold", "--tries", "2", "--wait", "9", "l1") == (0, [state(IS_EX), state(IS_EX, group=H)])
    assert "changes can't be followed" in place.said and "try 2 of 2" in place.said, place.said


@case
def clock_that_goes_back_among_changes(place):
    """Live, where no time ends the window: it isn't known how long ago a change was."""
    place.script("ip", 'echo "    inet 10.0.1.9/24 scope global l1"')
    place.script("tcpdump", 'echo "listening on l1" >&2; trap "echo 3 packets captured >&2; exit 0" TERM; cat window\n'
                 'while :; do sleep .1; done')
    for back, status in ((4, 1), (0.5, 0)):
        place.write("window", p.pcap([(0, p.frame(p.asked(tenths=50), sender=9)), says(4.5, 5, rec(IS_EX)),
                                      says(4.5 - back, 5, rec(BLOCK, S))]))
        assert place.reports("--fold", "--wait", "9", "l1")[0] == status, place.said
    assert place.reports("--wait", "9", "l1")[0] == 2, place.said


@case
def sources_without_number(place):
    """A host that excludes too many is taken to want some of them; of one that wants too many there is no list."""
    many = [f"10.{it >> 8 & 255}.{it & 255}.1" for it in range(700)]
    parts = [rec(BLOCK, *many[:350]), rec(BLOCK, *many[350:])]
    lines = listed(place, says(1, 5, rec(IS_EX)), *(says(2, 5, it) for it in parts))
    assert lines == [state(IS_EX, *sorted(many, key=p.address)[:360])], place.said
    assert listed(place, *(says(2, 5, rec(ALLOW, *it)) for it in (many[:350], many[350:]))) is None
    assert "wants more than 360 sources of 239.1.1.1" in place.said, place.said


@case
def hosts_and_groups_without_number(place):
    """There is no list, and it takes neither much time nor much memory."""
    groups = [f"239.{it >> 16}.{it >> 8 & 255}.{it & 255}" for it in range(1, 70001)]
    frames = [says(1 + at / 1e5, 5, *(rec(TO_EX, group=it) for it in groups[at:at + 150]))
              for at in range(0, 70000, 150)]
    place.write("l1.pcap", p.pcap([QUERY, *frames, END]))
    status, most = place.run_measured("reports", "--fold", "-o", "list", "--capture", "l1.pcap")
    assert status == 1 and "more than 65536 hosts and groups" in place.said, place.said[:999]
    assert most < 128 << 20, most


@case
def words_on_many_changes(place):
    """They are few, however many there are."""
    groups = [f"239.1.{it >> 8}.{it & 255}" for it in range(3000)]
    frames = [says(at, 5, *(rec(kind, group=it) for it in groups[turn:turn + 100]))
              for at, kind in ((1, IS_EX), (10, TO_IN)) for turn in range(0, 3000, 100)]
    assert len(listed(place, *frames)) == 3000 and "and 2980 more such hosts and groups" in place.said, place.said[:999]


class Host:
    """A host as RFC 3376 has it (sections 5.1 and 5.2), whose group and querier are watched."""

    def __init__(self, number, dice):
        """Takes its number and what it chooses by."""
        self.number, self.dice, self.mode, self.sources = number, dice, IS_IN, set()

    def record(self, change=0):
        """Returns what it answers, or with 2 what it reports after a change of its mode."""
        return rec(self.mode + change, *sorted(self.sources))

    def change(self):
        """Changes what it wants. Returns the records of its report."""
        mode, some = self.dice.choice((IS_IN, IS_EX)), self.dice.sample((S, T, "10.0.0.7"), self.dice.randint(0, 3))
        sources = set(some)
        before, self.mode, self.sources = (self.mode, self.sources), mode, sources
        if before[0] != mode:
            return [self.record(2)]
        more, less = sources - before[1], before[1] - sources
        kinds = (ALLOW, BLOCK) if mode == IS_IN else (BLOCK, ALLOW)
        return [rec(kind, *sorted(some)) for kind, some in zip(kinds, (more, less)) if some]


@case
def hosts_that_change_at_random(place):
    """The list is what each wants at the end: each answers the query at its time, and changes as it likes before the
    last 2 s."""
    for seed in range(25):
        dice = random.Random(seed)
        hosts = [Host(number, dice) for number in range(2, 7)]
        for it in hosts:
            it.change()
        events = [(dice.uniform(0.1, 9), host, is_answer) for host in hosts for is_answer in (True, *[False] * 6)]
        frames = []
        for at, host, is_answer in sorted(events, key=lambda it: it[0]):
            records = [host.record()] if is_answer else host.change()
            if records and not (is_answer and host.mode == IS_IN and not host.sources):
                frames.append(says(at, host.number, *records))
        wanted = [state(it.mode, *sorted(it.sources)) for it in hosts if it.mode == IS_EX or it.sources]
        assert listed(place, *frames) == wanted, (seed, place.said)
