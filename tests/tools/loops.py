#!/usr/bin/env python3
"""Ends the tools at random moments, fills their disk to each of some sizes, and hands them answers that were forged at
random: a site stays whole, what was written into it stays, no set is made of what is none, and the next run works.

  python3 tests/tools/loops.py [--seed N] [--times N]

It prints the seed, and of each failure which turn it was. --times N does so many times as much. The status is 0 if all
was survived. Full disks need the right to mount.
"""
import argparse
import concurrent.futures
import glob
import json
import os
import random
import shutil
import signal
import subprocess
import sys
import tempfile
import time

sys.dont_write_bytecode = True
import packets as p  # noqa: E402 pylint: disable=wrong-import-position
from place import NETWORK, PROGRAM, Place  # noqa: E402 pylint: disable=wrong-import-position
from ended import status_of  # noqa: E402 pylint: disable=wrong-import-position

KILLS, FORGERIES = 32, 37
FREE = range(0, 176, 11)  # KB that a disk has left: from none to what all of them want
PATIENCE = 8  # seconds that a tool has to end after a signal, of which it needs 2 where nothing else runs
NEW = p.wants("239.1.2.9").hex().encode() + b"\n"  # the list that is written
FIRST = "site.sets/20260101T000000Z"
FORGER = """import os, random, subprocess, sys
told = subprocess.run(["sh"], stdin=0, stdout=subprocess.PIPE).stdout
choice = random.Random(sys.argv[1])
kind, lines = choice.randrange(7), told.splitlines(True)
one, two = sorted(choice.randrange(len(lines)) for _ in range(2))
if kind == 0:
    told = told[:choice.randrange(len(told))]
elif kind == 1:
    told = b"".join(lines[:one] + lines[one + 1:])
elif kind == 2:
    told = b"".join(lines[:one] + lines[two:two + 1] + lines[one:])
elif kind == 3:
    told = b"".join(lines[two:] + lines[:two])
elif kind == 4:
    told = told[:len(told) * choice.randrange(100) // 100] + choice.randbytes(choice.randrange(1, 200)) + told
elif kind == 5:
    at = choice.randrange(len(told))
    told = told[:at] + bytes([told[at] ^ 1 << choice.randrange(8)]) + told[at + 1:]
else:
    at = choice.randrange(len(lines))
    told = b"".join(lines[:at] + [lines[at].rstrip(b"\\n") + b"9" * choice.randrange(1, 9) + b"\\n"] + lines[at + 1:])
os.write(1, told)
"""


def text_of(path):
    """Returns the bytes of a file."""
    with open(path, "rb") as file:
        return file.read()


def check_whole(place, site="site"):
    """Sees that the site is one whole set of the example, which an audit answers with yes."""
    folder = os.path.realpath(place.at(site))
    for name in os.listdir(NETWORK):
        if name not in ("README.md", "certificate", "igmp-l2"):
            assert text_of(os.path.join(folder, name)) == text_of(os.path.join(NETWORK, name)), f"{name} is another"
    if os.path.exists(os.path.join(folder, "collected.json")):
        files = json.loads(text_of(os.path.join(folder, "collected.json")))["files"]
        assert not set(files) - set(os.listdir(folder)), f"not there: {set(files) - set(os.listdir(folder))}"
    done = subprocess.run([PROGRAM, "audit", folder], capture_output=True, check=False)
    assert done.stdout.splitlines()[-1:] == [b"verdict yes"], done


def check_next(place, ways, site="site"):
    """Sees that the next run works, and that nothing of a dead one is left."""
    assert place.run("collect", "--adopt", "--pause", "0", site, *ways) == 0, place.said
    check_whole(place, site)
    assert not glob.glob(place.at(f"{site}.sets/.*")), os.listdir(place.at(f"{site}.sets"))
    folder, own = os.path.split(site)
    left = glob.glob(place.at(folder, f".{own}.*"))
    assert not any(map(os.path.isdir, left)), left


# Ends at random moments

def killed(place, choice):
    """Ends a tool by a signal at some moment of its work."""
    ways = place.routers("r1", "r2")
    tool, *words = choice.choice((
        ["collect", "--pause", "0", "site", *ways], ["collect", "--adopt", "--pause", "0", "site", *ways],
        ["reports", "-o", "site/igmp-l2", "--static", "239.1.2.9"],
        ["monitor", "--pause", "0", "--keep", "1", "site", *ways]))
    if "--adopt" in words:
        shutil.copytree(NETWORK, place.at("site"))
    else:
        place.site()
        place.write("site/notes", "kept")
    before = text_of(place.at("site/igmp-l2"))
    number = choice.choice((signal.SIGKILL, signal.SIGKILL, signal.SIGTERM, signal.SIGINT))
    moment = choice.random() * 1.2
    with place.begin(tool, *words) as running:
        time.sleep(moment)
        running.send_signal(number)
        said, begun = running.communicate(timeout=PATIENCE)[0].decode(), time.monotonic()
    told = f"{tool} {number.name} after {moment:.3f} s: status {running.returncode}, {said}"
    assert "Traceback" not in said or "mcaudit" not in said, told  # where the interpreter itself was still beginning
    assert time.monotonic() - begun < PATIENCE, told
    check_whole(place)
    after = text_of(place.at("site/igmp-l2"))
    assert after == (NEW if tool == "reports" and (running.returncode == 0 or after != before) else before), told
    check_next(place, ways)
    assert text_of(place.at("site/igmp-l2")) == after, told
    assert "--adopt" in words or place.read("site/notes") == "kept", told


# Full disks

def site_and_page(place):
    """Returns what the tools may change on the disk: where the site leads, a list, and the page."""
    return os.readlink(place.at("disk/site")), text_of(place.at("disk/site/igmp-l2")), place.read("disk/page.html")


def filled(place, free):
    """Runs the tools on a disk with so many KB left."""
    ways = place.routers("r1", "r2")
    os.mkdir(place.at("disk"))
    subprocess.run(["mount", "-t", "tmpfs", "-o", "size=512k", "tmpfs", place.at("disk")], check=True)
    try:
        shutil.copytree(NETWORK, place.at("disk", FIRST))
        os.symlink(FIRST, place.at("disk/site"))
        place.write("disk/page.html", "before")
        fill(place, free)
        for tool, *words in (["collect", "--pause", "0", "disk/site", *ways],
                             ["reports", "-o", "disk/site/igmp-l2", "--static", "239.1.2.9"],
                             ["monitor", "--pause", "0", "disk/site", *ways],
                             ["page", "--program", PROGRAM, "-o", "disk/page.html", "disk/site"]):
            before = site_and_page(place)
            status = place.run(tool, *words)
            assert status in (0, 3), f"{tool} with {free} KB: status {status}, {place.said}"
            after = site_and_page(place)
            if status == 3 and tool != "monitor":
                assert after == before, f"{tool} with {free} KB: {before} {after} {place.said}"
                assert "can't be" in place.said or "No space" in place.said, place.said
            check_whole(place, "disk/site")
        os.unlink(place.at("disk/filler"))
        check_next(place, ways, "disk/site")
    finally:
        subprocess.run(["umount", place.at("disk")], check=True)


def fill(place, free):
    """Fills the disk but for so many KB."""
    found = os.statvfs(place.at("disk"))
    place.write("disk/filler", bytes(max(0, found.f_bavail * found.f_bsize - free * 1024)))


# Forged answers

def forged(place, choice):
    """Has one router answer what was forged: it is not collected, or what its own table says is; the other one is."""
    ways = place.routers("r1", "r2")
    place.site()
    place.write("forger.py", FORGER)
    seed = choice.randrange(1 << 30)
    status = place.run("collect", "--pause", "0", "--timeout", "9", "site", ways[0],
                       f"r2=!env R=r2 {sys.executable} forger.py {seed}")
    told = f"forgery {seed}: status {status}, {place.said}"
    assert status in (0, 1) and "1 of 2" in place.said or "2 of 2" in place.said, told
    folder = os.path.realpath(place.at("site"))
    assert text_of(f"{folder}/vif-r1") == text_of(f"{NETWORK}/vif-r1"), told
    is_flipped = random.Random(str(seed)).randrange(7) == 5  # one bit of a table may be another, which nothing can tell
    for name in ("vif-r2", "cache-r2") if status == 0 and not is_flipped else ():
        assert text_of(f"{folder}/{name}") == text_of(f"{NETWORK}/{name}"), told
    is_there = [os.path.exists(f"{folder}/{it}-r2") for it in ("vif", "cache")]
    assert is_there == [status == 0] * 2, told
    assert sorted(os.listdir(folder)) == sorted({*os.listdir(place.at(FIRST)), "collected.json", ".carried"}
                                                - ({"vif-r2", "cache-r2"} if status else set())), told


def survived(function, argument):
    """Runs one turn in a folder of its own. Returns what is wrong, or None."""
    with tempfile.TemporaryDirectory(prefix="mcaudit-loops-") as folder:
        try:
            function(Place(folder), argument)
            return None
        except Exception as fault:  # pylint: disable=broad-exception-caught
            return f"{type(fault).__name__}: {fault}"


def main():
    """Runs all turns, four side by side. Returns the status."""
    words = argparse.ArgumentParser(description="Ends the tools at random moments, fills disks and forges answers.")
    words.add_argument("--seed", type=int, default=random.SystemRandom().randrange(1 << 30))
    words.add_argument("--times", type=int, default=1)
    found = words.parse_args()
    print(f"seed {found.seed}")
    turns = [(killed, random.Random(f"{found.seed} kill {it}")) for it in range(KILLS * found.times)]
    turns += [(filled, it) for it in FREE]
    turns += [(forged, random.Random(f"{found.seed} forge {it}")) for it in range(FORGERIES * found.times)]
    with concurrent.futures.ThreadPoolExecutor(4) as pool:
        faults = list(pool.map(lambda it: survived(*it), turns))
    for number, fault in enumerate(faults):
        if fault is not None:
            print(f"failed: turn {number}, {turns[number][0].__name__}: {fault}")
    failed = sum(it is not None for it in faults)
    return status_of(len(turns) - failed, failed)


if __name__ == "__main__":
    sys.exit(main())
