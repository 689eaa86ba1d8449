"""Tries sites: nothing that was written is lost, one moment is judged, and no router is there under two names."""
import fcntl
import glob
import json
import os
import shutil
import signal
import stat
import tempfile
import time

import packets as p
from place import NETWORK, PROGRAM, case, collected


# Nothing that was written is lost, and one moment is judged

def slow_collect(place, ways, seconds, name):
    """Begins to make a set, each write of which takes so long. Returns the running tool once the set has this file."""
    place.write("slow/sitecustomize.py", "import os, time\nfsync = os.fsync\n"
                f"def slowly(opened):\n    time.sleep({seconds})\n    fsync(opened)\nos.fsync = slowly\n")
    place.environment["PYTHONPATH"] = place.at("slow")
    collecting = place.begin("collect", "--pause", "0", "site", *ways)
    until = time.monotonic() + 20
    while not glob.glob(place.at(f"site.sets/.reading.*/set/{name}")) and time.monotonic() < until:
        time.sleep(0.01)
    return collecting


@case
def list_that_comes_while_a_set_is_made(place):
    """It is in the new set."""
    ways = place.routers("r1", "r2")
    place.site("r2")
    place.write("site/igmp-l2", "")
    with slow_collect(place, ways, 0.15, "collected.json") as collecting:
        del place.environment["PYTHONPATH"]
        assert place.run("reports", "-o", "site/igmp-l2", "--static", "239.1.2.3") == 0, place.said
        assert collecting.wait(30) == 0
    assert place.read("site/igmp-l2") != "", "the list is lost"
    assert json.loads(place.read("site/collected.json"))["files"]["igmp-l2"]["by"] == "static"


@case
def files_written_late_into_the_set_before(place):
    """They come into the next set: of an open file, of a new one and of a folder; each is named once."""
    ways = place.routers("r1", "r2")
    place.site()
    with open(place.at("site/igmp-l2"), "a", encoding="ascii") as written:
        before = collected(place, ways)
        assert "late" not in place.said and "had been made" not in place.said, place.said
        written.write(p.wants("239.1.2.3").hex() + "\n")
    place.write(f"{before}/notes", "n")
    place.write(f"{before}/old/notes", "o")
    collected(place, ways)
    assert place.read("site/igmp-l2").endswith(p.wants("239.1.2.3").hex() + "\n"), "the list is lost"
    assert place.read("site/notes") == "n" and place.read("site/old/notes") == "o"
    assert place.said.count("had been made of it") == 3 and "./site/igmp-l2 is what" in place.said, place.said
    assert json.loads(place.read("site/collected.json"))["files"]["igmp-l2"]["by"] == "operator"
    collected(place, ways)
    assert "had been made" not in place.said and place.read("site/notes") == "n", place.said


@case
def files_written_into_both_sets(place):
    """What the newer one has stays, and the other is named; where both have the same there is nothing to say."""
    ways = place.routers("r1", "r2")
    place.site()
    before = collected(place, ways)
    for name, old, new in (("igmp-l1", "a\n", "b\n"), ("igmp-l2", "c\n", "c\n"), ("notes", "x", "y")):
        place.write(f"{before}/{name}", old)
        place.write(f"site/{name}", new)
    os.unlink(place.at("site/igmp-l0"))
    place.write(f"{before}/igmp-l0", "d\n")
    collected(place, ways)
    assert [place.read(f"site/{it}") for it in ("igmp-l1", "igmp-l2", "notes")] == ["b\n", "c\n", "y"]
    for name, is_named in (("igmp-l1", True), ("igmp-l2", False), ("notes", True), ("igmp-l0", True)):
        assert (f"./site/{name} was written in" in place.said) == is_named, place.said
    assert not os.path.exists(place.at("site/igmp-l0"))


@case
def files_written_late_into_older_sets(place):
    """They come into the next set, once; where two older sets have one, that of the newer of them does."""
    ways = place.routers("r1", "r2")
    place.site()
    first, second, _ = (collected(place, ways) for _ in range(3))
    place.write(f"{first}/igmp-l2", "first\n")
    collected(place, ways)
    assert place.read("site/igmp-l2") == "first\n", "the list is lost"
    assert place.said.count("had been made of it") == 1 and "into 20260101T000000Z" in place.said, place.said
    place.write("site/igmp-l2", "by hand\n")
    for folder, text in ((first, "older"), (second, "newer")):
        place.write(f"{folder}/notes", text)
    collected(place, ways)
    assert place.read("site/igmp-l2") == "by hand\n" and place.read("site/notes") == "newer", place.said
    assert "igmp-l2" not in place.said and place.said.count("./site/notes") == 2, place.said
    collected(place, ways)
    assert "had been made" not in place.said and place.read("site/notes") == "newer", place.said


@case
def file_of_an_old_set_that_is_only_touched_by_others(place):
    """Whoever changes its rights or links it elsewhere writes nothing: what is newer stays."""
    ways = place.routers("r1", "r2")
    place.site()
    first, _ = (collected(place, ways) for _ in range(2))
    place.write("site/igmp-l2", "new\n")
    collected(place, ways)
    os.chmod(f"{first}/igmp-l2", 0o600)
    os.link(f"{first}/igmp-l2", place.at("backup"))
    collected(place, ways)
    assert place.read("site/igmp-l2") == "new\n" and "had been made" not in place.said, place.said


@case
def file_written_between_its_copy_and_the_swap(place):
    """It comes into the set after the new one."""
    ways = place.routers("r1", "r2")
    place.site()
    with slow_collect(place, ways, 0.1, ".carried") as collecting:
        place.write("site.sets/20260101T000000Z/igmp-l2", "late\n")
        assert os.path.realpath(place.at("site")).endswith("20260101T000000Z"), "the swap was before"
        assert collecting.wait(30) == 0
    assert place.read("site/igmp-l2") != "late\n"
    del place.environment["PYTHONPATH"]
    collected(place, ways)
    assert place.read("site/igmp-l2") == "late\n" and "igmp-l2 is what was written" in place.said, place.said


@case
def adopts_at_once(place):
    """One waits for the other, or is refused, and nothing is lost."""
    for _ in range(6):
        for path in glob.glob(place.at("site*")):
            shutil.rmtree(path) if os.path.isdir(path) and not os.path.islink(path) else os.unlink(path)
        place.write("site/topology", "t")
        place.write("site/igmp-l1", "r")
        running = [place.begin("collect", "--adopt", "site") for _ in range(3)]
        for one in running:
            one.communicate()
        assert place.read("site/topology") == "t" and place.read("site/igmp-l1") == "r"


@case
def runs_that_were_killed(place):
    """The next one takes away what they left, and never what a live one has."""
    ways = place.routers("r1")
    with place.begin("collect", "--pause", "9", "site", *ways) as killed:
        time.sleep(1.5)
        killed.kill()
    with place.begin("collect", "--pause", "4", "site", *ways) as alive:
        time.sleep(1.5)
        assert place.run("collect", "--pause", "0", "site", *ways) == 0, place.said
        assert alive.wait(20) == 0
    assert not glob.glob(place.at("site.sets/.*"))


@case
def runs_that_were_killed_as_they_swapped(place):
    """What they left beside SITE is taken away by the next one, but nothing else that is called so."""
    ways = place.routers("r1")
    place.site()
    for name in (".site.abcdefgh", ".site.a_c3efgh"):
        os.mkdir(place.at(name))
    os.symlink("site.sets/20260101T000000Z", place.at(".site.a_c3efgh/link"))
    kept = [".site.abcdefgi/folder/topology", ".site.abcdefg/x", ".other.abcdefgh/x"]
    for name in kept:
        place.write(name, "precious")
    place.write(".site.00000000", "a file")
    assert place.run("collect", "--pause", "0", "site", *ways) == 0, place.said
    assert [place.read(it) for it in kept] == ["precious"] * 3 and place.read(".site.00000000") == "a file"
    left = sorted(os.path.basename(it) for it in glob.glob(place.at(".site.*")))
    assert left == [".site.00000000", ".site.abcdefg", ".site.abcdefgi"], left


@case
def links_in_a_site(place):
    """They lead where they led, and one that leads nowhere is named."""
    place.write("master/topology", "m")
    os.makedirs(place.at("site"))
    os.symlink("../master/topology", place.at("site/topology"))
    os.symlink(place.at("master/topology"), place.at("site/notes"))
    ways = place.routers("r1")
    assert place.run("collect", "--adopt", "--pause", "0", "site", *ways) == 1, place.said
    assert place.read("site/topology") == "m" and place.read("site/notes") == "m"
    os.unlink(place.at("master/topology"))
    assert place.run("collect", "--pause", "0", "site", *ways) == 3 and "site/notes" in place.said, place.said


@case
def signal_to_the_collector(place):
    """It ends with 3, leaves nothing, and mcaudit-site judges no old set."""
    place.site()
    place.script("slow", "echo begun > begun; exec sleep 60")
    with place.begin("site", "init", "site", "r1=!slow; :", "--wait", "0") as running:
        place.await_file("begun")
        begun = time.monotonic()
        running.send_signal(signal.SIGTERM)
        said = running.communicate(timeout=20)[0].decode()
        assert running.returncode == 3 and time.monotonic() - begun < 4, (running.returncode, said)
    assert "verdict" not in said and not glob.glob(place.at("site.sets/.*"))


@case
def page_of_a_site_that_moves(place):
    """It is of one set."""
    place.site()
    shutil.copytree(place.at("site.sets/20260101T000000Z"), place.at("site.sets/20260202T000000Z"))
    place.write("site.sets/20260202T000000Z/cache-r2", "Group Origin\n")
    place.script("dot", f'ln -s site.sets/20260202T000000Z new && mv -fT new site; exec {shutil.which("dot")} "$@"')
    assert place.run("page", "--program", PROGRAM, "site", "-o", "page.html") == 0, place.said
    page = place.read("page.html")
    assert "Set 20260202" not in page and "Verdict: yes" in page.replace("<strong>", "").replace("</strong>", "")


# The same router twice, and those that no topology has

@case
def router_under_two_names(place):
    """It is refused by name: by what it says of itself, or where it can't say it, by its way."""
    ways = place.routers("r1", "r2")
    assert place.run("collect", "--pause", "0", "site", ways[0], "r2=!env R=r1") == 1
    assert "r2: is the same router as r1" in place.said and not os.path.exists(place.at("site/vif-r1")), place.said
    assert place.run("collect", "--pause", "0", "site", *ways) == 0, place.said


@case
def routers_by_a_python_that_reads_no_toml(place):
    """One router under two names is refused all the same, and that the topology can't be read is said."""
    ways = place.routers("r1", "r2")
    place.write("old/tomllib.py", "raise ImportError\n")
    place.environment["PYTHONPATH"] = place.at("old")
    place.site()
    place.write("site/topology", 'router = [{name = "r1"}]\n')
    assert place.run("collect", "--pause", "0", "site", ways[0], "r2=!env R=r1") == 1, place.said
    assert "r2: is the same router as r1" in place.said and not os.path.exists(place.at("site/vif-r1")), place.said
    assert place.run("collect", "--pause", "0", "site", *ways) == 0 and "of 3.11 or later" in place.said, place.said
    for tool, words in (("site", ("lans", "site")), ("draft", ("--update", "site", "r1=!false")),
                        ("reports", ("--all", "site", *ways))):
        assert place.run(tool, *words) == 3 and "of 3.11 or later" in place.said, (tool, place.said)


@case
def routers_that_the_topology_has_not(place):
    """They are named, however the topology is written."""
    ways = place.routers("r1", "r2")
    for topology, status in (('router = [{name = "r1"}]', 1), ('router = [{name = "r1"}, # {name = "r2"}\n]', 1),
                             ("router = [{name = 'r1'}]", 1), ('router = [{"name" = "r1"}]', 1),
                             ('lans = ["name = \\"r2\\""]\nrouter = [{name = "r1"}]', 1),
                             ("router = [{name = \"r1\"}, {name = 'r2'}]", 0),
                             ('router = [{name = "r1"}, {name = "r\\u0032"}]', 0), ("router = [", 1)):
        for path in glob.glob(place.at("site*")):
            shutil.rmtree(path) if os.path.isdir(path) and not os.path.islink(path) else os.unlink(path)
        place.write("site/topology", topology)
        assert place.run("collect", "--adopt", "--pause", "0", "site", *ways) == status, (topology, place.said)


@case
def monitor_of_a_router_that_no_topology_has(place):
    """It is UNKNOWN, whichever Python runs it."""
    ways = place.routers("r1", "r2")
    place.site()
    shutil.copytree(place.at("r2"), place.at("r9"))
    words = "monitor", "--plugin", "--pause", "0", "site", *ways, "r9=!env R=r9"
    assert place.run(*words) == 3 and "r9" in place.said, place.said


@case
def routers_that_are_called_as_folders_are(place):
    """No name of a router is one of a scratch folder."""
    place.routers("r1", "r2")
    for names in (("set", "routers"), ("answer", "collected.json")):
        for name, of in zip(names, ("r1", "r2")):
            shutil.copytree(place.at(of), place.at(name), dirs_exist_ok=True)
        assert place.run("collect", "--pause", "0", "site", *(f"{it}=!env R={it}" for it in names)) == 0, place.said
        assert all(os.path.exists(place.at("site", f"vif-{it}")) for it in names)


@case
def equal_ways_of_which_one_is_silent(place):
    """They are one router also where only one of them says who it is; with two ways it is said that it isn't known."""
    place.routers("r1")
    place.script("mute", "sed 's/boot_id/none/' | env R=r1 sh")
    silent = "r1=!env R=r1", "r2=!mute; :"
    assert place.run("collect", "--pause", "0", "site", *silent) == 0, place.said
    assert "whether these are routers of their own isn't known" in place.said and "r2" in place.said, place.said
    place.script("once", """echo x >> count
[ "$(wc -l < count)" -ne 3 ] || { sed 's/boot_id/none/' | env R=r1 sh; exit; }
exec env R=r1 sh""")
    for _ in range(2):
        status = place.run("collect", "--at-once", "1", "--pause", "0", "other", "r1=!once", "r2=!once")
        assert status == 1 and "is the same router as" in place.said, place.said
        assert not glob.glob(place.at("other/vif-*")), place.said


@case
def set_that_is_removed_as_it_is_judged(place):
    """No verdict is said of it, and no change."""
    place.script("mcaudit", f'{PROGRAM} "$@"; status=$?; rm -rf site.sets/2026*; exit "$status"')
    for tool, *words in (["monitor", "--plugin", "--no-collect", "site"], ["monitor", "--no-collect", "site"],
                         ["page", "site", "-o", "page.html"], ["diff", "site", "site"],
                         ["site", "init", "--wait", "0", "site", *place.routers("r1", "r2")]):
        os.path.islink(place.at("site")) and os.unlink(place.at("site"))
        place.site()
        assert place.run(tool, *words) == 3, (tool, place.said)
        assert "the set was removed meanwhile" in place.said, (tool, place.said)
        assert tool == "site" or "verdict" not in place.said and "OK" not in place.said, (tool, place.said)


@case
def plugin_where_a_router_was_collected_that_no_topology_has(place):
    """It is UNKNOWN also where the set is judged as it is; a file that nobody collected is none of that."""
    ways = place.routers("r1", "r2")
    place.site()
    shutil.copytree(place.at("r2"), place.at("r9"))
    assert place.run("collect", "--pause", "0", "site", *ways, "r9=!env R=r9") == 1, place.said
    for words in (("--plugin", "--warn-reports", "0"), ()):
        assert place.run("monitor", "--no-collect", *words, "site") == 3, place.said
        assert "r9" in place.said and "OK" not in place.said and "verdict yes" not in place.said, place.said
    collected(place, ways)
    place.write("site/vif-r8", place.read("site/vif-r1"))
    assert place.run("monitor", "--no-collect", "site") == 0, place.said


@case
def scratch_folder_that_ends_as_it_is_cleared(place):
    """Another run that just ends takes its own away."""
    ways = place.routers("r1")
    os.makedirs(place.at("site.sets/.reading.ends"))
    place.write("ends/sitecustomize.py", """import os
opened = os.open
def open_late(path, *words, **how):
    if str(path).endswith(".reading.ends"):
        os.rmdir(path)
    return opened(path, *words, **how)
os.open = open_late
""")
    place.environment["PYTHONPATH"] = place.at("ends")
    assert place.run("collect", "--pause", "0", "site", *ways) == 0, place.said


@case
def lock_of_another_name_of_the_site(place):
    """Whoever writes by a link to the site waits for the same lock, and what it writes is told of."""
    place.site()
    os.symlink("site", place.at("alias"))
    with open(place.at("site.write.lock"), "wb") as lock:
        fcntl.flock(lock, fcntl.LOCK_EX)
        with place.begin("reports", "-o", "alias/igmp-l2", "--static", "239.1.2.9") as running:
            time.sleep(3)
            assert running.poll() is None and place.read("site/igmp-l2") != p.wants("239.1.2.9").hex() + "\n"
            fcntl.flock(lock, fcntl.LOCK_UN)
            assert running.wait(20) == 0
    assert place.read("site/igmp-l2") == p.wants("239.1.2.9").hex() + "\n" and not os.path.exists(
        place.at("alias.write.lock"))


@case
def folders_of_a_site_with_what_has_no_end(place):
    """A pipe or a device in one is named, and never waited for or copied."""
    ways = place.routers("r1")
    for make in (os.mkfifo, lambda path: os.mknod(path, 0o600 | stat.S_IFCHR, os.makedev(1, 5))):
        shutil.rmtree(place.at("site.sets"), ignore_errors=True)
        os.path.islink(place.at("site")) and os.unlink(place.at("site"))
        place.site()
        os.mkdir(place.at("site/notes"))
        try:
            make(place.at("site/notes/zeros"))
        except PermissionError:
            continue
        assert place.run("collect", "--pause", "0", "site", *ways) == 3, place.said
        assert "notes/zeros is not a regular file" in place.said, place.said


@case
def names_of_other_folders_in_what_a_set_keeps(place):
    """No name of collected.json or of the notes on the set before leads out of the set."""
    ways = place.routers("r1", "r2")
    place.site()
    place.write("precious", "p")
    os.utime(place.at("precious"), (1e9, 1e9))
    files = {"../../precious": {"by": "collect", "of": "r1", "time": 5}}
    place.write("site/collected.json", json.dumps({"version": 2, "files": files}))
    assert place.run("reports", "-o", "site/igmp-l2", "--static", "239.1.2.9") == 0, place.said
    assert os.stat(place.at("precious")).st_mtime == 1e9
    for name in ("..", ".", "../../bin"):
        place.write("site/.carried", json.dumps({"files": {}, "from": name, "others": {}, "version": 1}))
        collected(place, ways)
        assert "had been made" not in place.said, place.said
        assert not {"bin", "precious"} & {*os.listdir(place.at("site"))}


# A run that is killed as it makes a folder the first set

KILLED = """import os, signal
COUNT = [int(os.environ["CALLS"])]
def step():
    COUNT[0] -= 1
    if COUNT[0] == 0:
        os.kill(os.getpid(), signal.SIGKILL)
def stepping(call):
    def called(*words, **how):
        step()
        found = call(*words, **how)
        if call is symlink:  # what Python has no call for may come next
            step()
        return found
    return called
symlink = os.symlink
for name in "fsync", "link", "mkdir", "rename", "replace", "rmdir", "symlink", "unlink":
    setattr(os, name, stepping(getattr(os, name)))
"""


def plain_site(place, sets):
    """Makes `site` a plain folder whose topology is a relative link, and has its sets on that disk, where it is
    named."""
    for path in glob.glob(place.at("site*")) + glob.glob(place.at(".site*")):
        shutil.rmtree(path) if os.path.isdir(path) and not os.path.islink(path) else os.unlink(path)
    place.write("common/topology", "t")
    place.write("site/igmp-l2", "r")
    os.symlink("../common/topology", place.at("site/topology"))
    if sets is not None:
        shutil.rmtree(sets, ignore_errors=True)
        os.mkdir(sets)
        os.symlink(sets, place.at("site.sets"))


def check_adopted(place, count):
    """Sees that there is a site with all that the folder had, and so is each set."""
    for folder in ("site", *(it for it in glob.glob(place.at("site.sets/2*")) if not os.path.islink(it))):
        assert place.read(f"{folder}/topology") == "t" and place.read(f"{folder}/igmp-l2") == "r", (count, folder)


def killed_at_each_step(place, sets):
    """Adopts a folder, killed at the first step, at the second one and so on: there is a whole site each time, which
    the next run makes a set where the killed one has not. Returns how many steps there were, and the most sets."""
    most = 0
    for count in range(1, 200):
        plain_site(place, sets)
        place.environment |= {"PYTHONPATH": place.at("killed"), "CALLS": str(count)}
        status = place.run("collect", "--adopt", "site")
        check_adopted(place, count)
        del place.environment["PYTHONPATH"]
        if status == 0:
            return count, most
        assert status == -signal.SIGKILL, (count, status, place.said)
        assert place.run("collect", "--adopt", "site") == 0, (count, place.said)
        check_adopted(place, count)
        there = os.listdir(place.at("site.sets"))
        assert os.path.islink(place.at("site")) and not any(it.startswith(".") for it in there), (count, there)
        most = max(most, len(there))
    raise AssertionError("it never ends")


@case
def adoption_that_is_killed(place):
    """There is a site at each moment, the folder or the set that it is then, also where the sets are on another disk;
    there a copy of it may be left as a set before it."""
    place.write("killed/sitecustomize.py", KILLED)
    with tempfile.TemporaryDirectory(dir="/dev/shm" if os.path.isdir("/dev/shm") else None) as shared:
        for sets, most in ((None, 1), (os.path.join(shared, "sets"), 2)):
            found = killed_at_each_step(place, sets)
            assert found[0] > 12 and found[1] <= most, (sets, found)


@case
def adoption_where_no_names_can_be_exchanged(place):
    """As by an older kernel: the folder becomes the first set all the same."""
    place.write("older/sitecustomize.py", """import ctypes
def refused(*_, **__):
    raise OSError(38, "Function not implemented")
ctypes.CDLL = refused
""")
    with tempfile.TemporaryDirectory(dir="/dev/shm" if os.path.isdir("/dev/shm") else None) as shared:
        for sets in (None, os.path.join(shared, "sets")):
            plain_site(place, sets)
            place.environment["PYTHONPATH"] = place.at("older")
            assert place.run("collect", "--adopt", "site") == 0, place.said
            check_adopted(place, sets)
            assert os.path.islink(place.at("site")) and len(os.listdir(place.at("site.sets"))) == 1


# A disk that fails once the link is renamed

UNSYNCED = """import errno, os
fsync = os.fsync
def failing(opened):
    is_led = os.path.islink({site!r}) and os.readlink({site!r}) != {before!r}
    if is_led and os.path.samestat(os.fstat(opened), os.stat({folder!r})):
        raise OSError(errno.EIO, os.strerror(errno.EIO))
    fsync(opened)
os.fsync = failing
"""


def without_the_link(place, before):
    """Has no link of `site` come to the disk but the one that leads there."""
    text = UNSYNCED.format(folder=place.folder, site=place.at("site"), before=before)
    place.write("unsynced/sitecustomize.py", text)
    place.environment["PYTHONPATH"] = place.at("unsynced")


@case
def link_that_does_not_come_to_the_disk(place):
    """The site leads where it led, to a set that is there."""
    ways = place.routers("r1", "r2")
    place.site()
    without_the_link(place, os.readlink(place.at("site")))
    assert place.run("collect", "--pause", "0", "site", *ways) == 3, place.said
    assert os.listdir(place.at("site.sets")) == ["20260101T000000Z"] and place.read("site/topology"), place.said


@case
def folder_whose_link_does_not_come_to_the_disk(place):
    """What was to be adopted is as it was, also where the sets are on another disk: no copy of it is the last one."""
    shutil.copytree(NETWORK, place.at("site"))
    without_the_link(place, "")
    with tempfile.TemporaryDirectory(dir="/dev/shm" if os.path.isdir("/dev/shm") else None) as sets:
        for is_elsewhere in False, True:
            if is_elsewhere:
                os.symlink(sets, place.at("site.sets"))
            assert place.run("collect", "--adopt", "site") == 3 and "Input/output error" in place.said, place.said
            assert not os.path.islink(place.at("site")) and place.read("site/topology"), place.said
        del place.environment["PYTHONPATH"]
        assert place.run("collect", "--adopt", "site") == 0 and place.read("site/topology"), place.said
