"""A site: the link SITE, the sets in SITE.sets to one of which it leads, and the locks beside it.

What is there at one time is a set, a folder SITE.sets/TIME. SITE is a symbolic link to one, and a rename of a new link
over it is all that ever changes it: it leads to the old set or to the new one, whole. Whoever makes a set copies what
the last one has and swaps the link under the lock SITE.write.lock, and so does whoever writes a file into SITE: what is
written comes into the set before it is copied, or into the new one. What others write into a set that was copied
already comes into the one after the new one (late.py).
"""
import contextlib
import os
import re
import shutil
import tempfile
import time

from mcaudit_tools import late, locks, origins
from mcaudit_tools.common import Failed, Wrong, is_set_name, say
from mcaudit_tools.files import copy, failing, open_folder, replace_link, sync_files, sync_folder, write_beside
from mcaudit_tools.programs import RUNNING

SCRATCH = ".reading."  # what the folders are called in which sets are made
OLD_SCRATCH = r"\.reading\.[0-9]+"  # of 0.2.0, which locked none
STALE = 3600  # seconds after which one of those is nobody's
MOST_LINKS = 40  # that are followed from a name of a site to it
NOT_CARRIED = origins.FILE, "audit.json"
PLAIN_NAME = re.compile(r"[A-Za-z0-9_.-]+")  # of files that collected.json tells of


class Site:
    """The link, the sets and the lock of one site."""

    def __init__(self, path):
        """Takes the path of the link."""
        stripped = path.rstrip("/")
        if os.path.basename(stripped) in ("", ".", ".."):
            raise Wrong("SITE has to be a folder's name")
        self.path = stripped if stripped.startswith(("/", "./", "../")) else f"./{stripped}"
        self.sets = f"{self.path}.sets"
        self.states = {}  # of the last set's files, as they were before they were copied
        self.others = {}  # of the files of some sets before it

    # The lock

    def writing(self):
        """Returns what holds the lock of whoever writes into the site, which is waited for some seconds."""
        return locks.hold(f"{self.path}.write.lock")

    # What there is

    def folder(self):
        """Returns the real path of the set that the site leads to now: whoever names it has one moment's files."""
        return os.path.realpath(self.path)

    def check(self, may_adopt):
        """Fails unless the site is a link to a set, or can become one."""
        if os.path.islink(self.path):
            if not os.path.isdir(self.path) or os.path.dirname(self.folder()) != os.path.realpath(self.sets):
                raise Failed(f"{self.path} is not a link to a set in {self.sets}")
        elif os.path.isdir(self.path):
            if not may_adopt:
                raise Failed(f"{self.path} is a plain folder: --adopt makes it the first set")
        elif os.path.lexists(self.path):
            raise Failed(f"{self.path} can't be written")

    def failing(self):
        """Tells that the site can't be written, where a call of the system fails in it."""
        return failing(f"{self.path} can't be written")

    # What is made

    @contextlib.contextmanager
    def scratch(self):
        """Gives a folder in which a set can be made, beside the sets. Those of dead runs are taken away first."""
        is_new = not os.path.lexists(self.sets)
        with self.failing():
            os.makedirs(self.sets, exist_ok=True)
            with self.writing():
                os.makedirs(self.sets, exist_ok=True)  # another run may have taken away its own
                self.clear_stale()
                self.clear_links()
                made = tempfile.mkdtemp(prefix=SCRATCH, dir=self.sets)
                opened = locks.lock_folder(made)
        try:
            yield made
        finally:
            shutil.rmtree(made, ignore_errors=True)
            os.close(opened)
            if is_new:
                with contextlib.suppress(OSError, Failed), self.writing():
                    os.rmdir(self.sets)

    def clear_stale(self):
        """Removes the scratch folders that no live run has."""
        for entry in list(os.scandir(self.sets)):
            if not entry.name.startswith(SCRATCH) or not entry.is_dir(follow_symlinks=False):
                continue
            if re.fullmatch(OLD_SCRATCH, entry.name) and is_young(entry.path):
                continue
            with contextlib.suppress(FileNotFoundError), open_folder(entry.path) as opened:  # its run may end now
                if locks.try_lock(opened):
                    shutil.rmtree(entry.path, ignore_errors=True)

    def clear_links(self):
        """Removes what a run that was killed as it swapped left: beside SITE a folder with a link in it, or with
        nothing, and among the sets a link in a set's place. The lock is held, so no live run has one."""
        for entry in list(os.scandir(self.sets)):
            if is_set_name(entry.name) and entry.is_symlink() and os.readlink(
                    entry.path) == self.target_of(entry.path):
                os.unlink(entry.path)
        folder, own = os.path.split(self.path)
        left = re.compile(re.escape(f".{own[:80]}.") + "[a-z0-9_]{8}")
        for entry in list(os.scandir(folder)):
            if left.fullmatch(entry.name) and entry.is_dir(follow_symlinks=False):
                with contextlib.suppress(OSError):  # of another kind, or not empty
                    if os.path.islink(os.path.join(entry.path, "link")):
                        os.unlink(os.path.join(entry.path, "link"))
                    os.rmdir(entry.path)

    def adopt(self, scratch):
        """Makes a plain folder the first set. In the scratch folder it is made where it has to be copied."""
        # (once in the life of a site)
        from mcaudit_tools.adopt import Adoption  # pylint: disable=import-outside-toplevel
        with self.writing(), RUNNING.unheeded():
            if os.path.islink(self.path) or not os.path.isdir(self.path):
                self.check(True)
                return
            adoption = Adoption(self, self.free_folder(), scratch)
            with self.failing():
                adoption.run()

    def free_folder(self):
        """Returns the path of a new set, whose name is the time."""
        while True:
            path = os.path.join(self.sets, time.strftime("%Y%m%dT%H%M%SZ", time.gmtime()))
            if not os.path.lexists(path):
                return path
            time.sleep(0.1)

    def lead_to(self, name):
        """Makes the site a link to the set of this name; where that doesn't come to the disk, the site is as it was."""
        before = os.readlink(self.path) if os.path.islink(self.path) else None
        self.link_to(self.target_of(name))
        try:
            sync_folder(os.path.dirname(self.path))
        except BaseException:
            if before is None:
                os.unlink(self.path)
            else:
                self.link_to(before)
            raise

    def target_of(self, folder):
        """Returns where a link to a set leads, which has this path or name."""
        return os.path.join(os.path.basename(self.sets), os.path.basename(folder))

    def link_to(self, target):
        """Makes the site a link that leads there. The new link is made beside SITE, on its disk."""
        folder, own = os.path.split(self.path)
        made = tempfile.mkdtemp(prefix=f".{own[:80]}.", dir=folder)
        try:
            replace_link(self.path, target, os.path.join(made, "link"))
        finally:
            shutil.rmtree(made, ignore_errors=True)

    def publish(self, new, is_replaced, scratch, announce):
        """Makes a set of the new files, {name: (path, origin)}, and of those of the last set that aren't replaced, and
        has the site lead to it. Announces the set's path before that. Returns that path."""
        made = os.path.join(scratch, "set")
        with self.writing(), self.failing():
            self.check(False)
            last = self.folder() if os.path.lexists(self.path) else None
            os.mkdir(made)
            told, sentences = self.carry(last, made, lambda name: name in new or is_replaced(name))
            for name, (path, origin) in new.items():
                os.rename(path, os.path.join(made, name))
                origins.keep_time(os.path.join(made, name), origin)
                told[name] = origin
            with open(os.path.join(made, origins.FILE), "wb") as file:
                file.write(origins.text_of(told))
            if last is not None:
                with open(os.path.join(made, late.FILE), "wb") as file:
                    file.write(late.text_of(os.path.basename(last), self.states, late.states_of(made, is_left_out),
                                            self.others))
            sync_files(made)
            folder = self.free_folder()
            announce(folder)
            with RUNNING.unheeded():
                self.take_set(made, folder)
        for sentence in sentences:
            say(sentence)
        return folder

    def take_set(self, made, folder):
        """Makes what was made a set, to which the site leads."""
        os.rename(made, folder)
        try:
            sync_folder(self.sets)
            self.lead_to(os.path.basename(folder))
        except BaseException:
            shutil.rmtree(folder, ignore_errors=True)
            raise

    def carry(self, last, made, is_replaced):
        """Copies the other files of the last set into the one that is made, and what was written late into those
        before it. Returns where they come from, and what a person is to know of it."""
        if last is None:
            return {}, []
        found = late.Late(last, is_left_out, is_replaced)
        self.others, self.states = found.others(), late.states_of(last, is_left_out)
        for name in self.states:
            if is_replaced(name) and os.path.isdir(os.path.join(last, name)):
                raise Failed(f"{os.path.join(self.path, name)} is a folder")
        names = [it for it in self.states if not is_replaced(it) and it not in found.written]
        told = self.carry_files(last, names, made, self.path)
        for earlier in dict.fromkeys(found.written.values()):
            names = [it for it, folder in found.written.items() if folder == earlier]
            named = os.path.join(self.sets, os.path.basename(earlier))
            told.update(self.carry_files(earlier, names, made, named))
        return told, found.sentences(self.path)

    def carry_files(self, folder, names, made, named):
        """Copies these files of a set into the one that is made. The set is told by a name. Returns where they come
        from."""
        known, told = {}, {}
        with contextlib.suppress(origins.Unknown):
            known = origins.read(folder)
        is_copied = origins.is_copy(folder, known)
        for name in names:
            path = os.path.join(folder, name)
            copy(path, os.path.join(made, name), os.path.join(named, name))
            if PLAIN_NAME.fullmatch(name) and os.path.isfile(path):
                told[name] = origins.current(path, known.get(name), is_copied)
                if is_copied:
                    origins.keep_time(os.path.join(made, name), told[name])
        return told


def is_young(path):
    """Whether a folder of 0.2.0 may be that of a live run."""
    with contextlib.suppress(FileNotFoundError):
        return time.time() - os.stat(path).st_mtime < STALE
    return True


def is_left_out(name):
    """Whether a file of a set is never taken into the next one."""
    return name.startswith(".") or name in NOT_CARRIED


def site_of(folder):
    """Returns the site that a folder is, by its path: a link to a set, or what has a topology; else None. A link that
    leads to a site is another name of it, and has its lock."""
    is_site = os.path.islink(folder.rstrip("/")) or os.path.lexists(os.path.join(folder, "topology"))
    if not is_site or os.path.basename(folder.rstrip("/")) in ("", ".", ".."):
        return None
    path = folder.rstrip("/")
    for _ in range(MOST_LINKS):
        target = os.path.join(os.path.dirname(path), os.readlink(path)) if os.path.islink(path) else path
        if not os.path.islink(target.rstrip("/")):
            break
        path = target.rstrip("/")
    return Site(path)


def record(folder, told):
    """Notes in a site's folder where some of its files come from, and gives them that time. The lock is held."""
    known = {}
    with contextlib.suppress(origins.Unknown):
        known = origins.read(folder)
    if origins.is_copy(folder, {name: it for name, it in known.items() if name not in told}):
        for name, origin in known.items():
            with contextlib.suppress(FileNotFoundError):
                origins.keep_time(os.path.join(folder, name), origin)
    for name, origin in told.items():
        origins.keep_time(os.path.join(folder, name), origin)
    write_beside(os.path.join(folder, origins.FILE), origins.text_of({**known, **told}))
