"""A copy of a set on which changes are tried: its files are copied once, each change writes lines of them anew, and
mcaudit judges the copy. Where the set lies nothing is written.

    with Copy(site) as copy:
        before = list(copy.audit("--unlisted"))
        copy.apply(changes.parse("r2: down"))
        after = list(copy.audit("--unlisted"))

`audit` yields the objects of an audit's JSON; `status`, `domain`, `summary` and `verdict` are then those of the last
one. The first comes before any change: what it refuses nothing is changed of.
"""
import contextlib
import os
import shutil
import tempfile

from mcaudit_tools import audit as audits
from mcaudit_tools import origins
from mcaudit_tools.apply import APPLIERS
from mcaudit_tools.common import Failed, Refused, find_tool, is_name
from mcaudit_tools.files import failing, open_regular, read_regular, umask
from mcaudit_tools.rewrite import CacheTable, VifTable

MOST_BYTES = 16 << 20  # of a file that mcaudit reads
PREFIXES = "vif-", "cache-", "igmp-"
TOPOLOGY = "topology"


class Domain:
    """The domain that an audit is of, and its flows."""

    def __init__(self, line):
        """Takes the domain of the first line."""
        self.line = line
        self.orders = {it["name"]: it["order"] for it in line["routers"]}  # by router
        self.lans = list(line["lans"])
        self.sources = {it["address"]: it["lan"] for it in line["sources"]}
        self.flows = []  # (source, group, time to live), in the topology's order

    def vifs_on(self, lan):
        """Returns the routers and vifs on a LAN."""
        return [(it["router"], it["vif"]) for it in self.line["interfaces"]
                if it["lan"] == lan and it["vif"] is not None]

    def listed(self):
        """Returns what the topology lists beside the flows and the interfaces."""
        return self.orders, self.lans, self.sources

    def names(self):
        """Returns the names of the files that mcaudit reads."""
        return [TOPOLOGY, *(f"{kind}-{it}" for it in self.orders for kind in ("vif", "cache")),
                *(f"igmp-{it}" for it in self.lans)]


class Copy:
    """A copy of a set, of which some files are changed."""

    def __init__(self, site, keep=None):
        """Takes the folder SITE, and where the changed copy is to be kept."""
        self.named, self.keep = site.rstrip("/") or site, keep
        self.folder = ""  # of the copy, once it is there
        self.first = None  # the domain as it was found
        self.domain = self.status = self.summary = self.verdict = None  # of the last audit
        self.flows = []  # those that the topology has to have
        self.files, self.changed, self.assumed = {}, set(), {}

    # The folder

    def __enter__(self):
        """Makes the copy, in a folder of its own."""
        beside = None
        if self.keep is not None:
            beside = self.checked_place()
        with failing(f"{self.keep} can't be written" if beside else "no copy can be made"):
            self.folder = tempfile.mkdtemp(prefix=".mcaudit-try.", dir=beside)
        try:
            self.fill(os.path.realpath(self.named))
        except BaseException:
            shutil.rmtree(self.folder, ignore_errors=True)
            raise
        return self

    def __exit__(self, *_):
        """Removes the folder, unless it was kept."""
        shutil.rmtree(self.folder, ignore_errors=True)

    def checked_place(self):
        """Returns the folder in which the copy is to be kept, which is none of the site's."""
        if os.path.lexists(self.keep):
            raise Failed(f"{self.keep} is there already")
        place, own = os.path.realpath(os.path.dirname(self.keep.rstrip("/")) or "."), os.path.realpath(self.named)
        if os.path.commonpath([place, own]) == own:
            raise Failed(f"{self.keep} lies in {self.named}, which is never written")
        return place

    def fill(self, folder):
        """Copies the files of the set that SITE leads to now. What mcaudit can't read, or is longer than it reads, it
        meets by a link."""
        before = self.states(folder)
        for name in before:
            self.take(os.path.join(folder, name), os.path.join(self.folder, name))
        if not os.path.isdir(folder):
            raise Failed(f"{self.named}: the set was removed meanwhile")
        if self.states(folder) != before:
            raise Failed(f"{self.named} was written while it was copied: try again")

    def states(self, folder):
        """Returns what another writing changes of each file that may be read, by name."""
        found = {}
        with failing(f"{self.named} can't be read"):
            for name in sorted(os.listdir(folder)):
                prefix = next((it for it in PREFIXES if name.startswith(it)), None)
                if name in (TOPOLOGY, origins.FILE) or prefix and is_name(name[len(prefix):]):
                    with contextlib.suppress(FileNotFoundError, PermissionError):  # of a link that leads nowhere
                        about = os.stat(os.path.join(folder, name))
                        found[name] = about.st_ino, about.st_size, about.st_mtime_ns
        return found

    def take(self, path, target):
        """Copies a file with its times, or links to it."""
        try:
            with open_regular(path) as file:
                data, about = file.read(MOST_BYTES + 1), os.fstat(file.fileno())
        except (Failed, OSError):
            data = None
        with failing("the copy can't be written"):
            if data is None or len(data) > MOST_BYTES:
                os.symlink(path, target)
                return
            with open(target, "xb") as file:
                file.write(data)
            os.utime(target, ns=(about.st_atime_ns, about.st_mtime_ns))

    def keep_folder(self):
        """Gives the copy the name under which it is kept."""
        known = self.domain.names()
        with failing(f"{self.keep} can't be written"):
            for name in os.listdir(self.folder):
                if name not in known and name != origins.FILE:
                    os.unlink(os.path.join(self.folder, name))
            os.chmod(self.folder, 0o777 & ~umask())
            os.rename(self.folder, self.keep)

    # The judge

    def audit(self, *options):
        """Writes what was changed, and yields the objects of what mcaudit says about the copy then."""
        self.write()
        command = [find_tool("mcaudit"), "audit", "--json", *options, self.folder]
        self.status, objects = audits.run_audit(command, f"{self.named}: mcaudit")
        if self.status == 2:
            raise Refused(f"mcaudit refuses it{' with these changes' * (self.first is not None)}")
        if self.status not in (0, 1):
            raise Failed(f"{self.named}: mcaudit ended with status {self.status}", 4 if self.status == 4 else 3)
        for line in objects:
            self.take_line(line)
            yield line
        self.check()

    def take_line(self, line):
        """Takes what an object has of the domain and the verdict."""
        try:
            if "domain" in line:
                self.domain = Domain(line["domain"])
            elif "flow" in line:
                self.domain.flows.append((line["source"], line["group"], line["ttl"]))
            self.summary = line.get("summary", self.summary)
            self.verdict = line.get("verdict", self.verdict)
        except (KeyError, TypeError, AttributeError) as fault:
            raise Failed(f"what mcaudit says about {self.named} can't be read") from fault

    def check(self):
        """Fails unless the topology is the one that was meant."""
        if self.first is None:
            self.first, self.flows = self.domain, list(self.domain.flows)
        if (self.verdict == "yes") != (self.status == 0):
            raise Failed(f"{self.named}: mcaudit prints another verdict than that of its status {self.status}")
        if (self.flows, self.first.listed()) != (self.domain.flows, self.domain.listed()):
            from mcaudit_tools.flows import ODD  # (as in apply.py)  pylint: disable=import-outside-toplevel
            raise Refused(ODD)

    def write(self):
        """Writes the files that were changed."""
        for name in sorted(self.changed):
            data = self.files[name].text()
            with failing("the copy can't be written"), open(os.path.join(self.folder, name), "wb") as file:
                file.write(data)
        self.changed.clear()

    # What is changed

    def file(self, name, kind, *about):
        """Returns a file to be read."""
        if name not in self.files:
            self.files[name] = kind(read_regular(os.path.join(self.folder, name), MOST_BYTES, name), *about)
        return self.files[name]

    def changing(self, name):
        """Returns a file that is to be written, which was read."""
        self.changed.add(name)
        return self.files[name]

    def vifs(self, router):
        """Returns the vif table of a router."""
        return self.file(f"vif-{router}", VifTable)

    def cache(self, router):
        """Returns the cache of a router."""
        return self.file(f"cache-{router}", CacheTable, self.first.orders[router])

    def put(self, router, source, group, entry):
        """Writes an entry of a router, or takes it out where it is None."""
        self.cache(router).put(source, group, entry)
        self.changed.add(f"cache-{router}")

    def threshold(self, router, vif):
        """Returns the threshold that an outgoing vif gets where none is given. Where it isn't sure, that is kept."""
        number, is_sure = self.cache(router).threshold(vif)
        if not is_sure:
            self.assumed[router, self.vifs(router).name_of(vif)] = number
        return number

    def apply(self, change):
        """Makes one change, after the first audit. Fails where the domain has not what the change names."""
        try:
            APPLIERS[change.verb](self, change)
        except Refused as fault:
            raise Refused(f"`{change.text}`: {fault}") from fault
