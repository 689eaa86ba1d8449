"""How a plain folder becomes the first set of a site: it is moved among the sets, and a link to it comes into its
place.

Where the system can exchange two names in one step there is a SITE at each moment, also if the run is killed: the
folder as it was, or a link to the set that it is then. Else there is none for a moment.
"""
import contextlib
import os
import shutil
import tempfile
import typing

from mcaudit_tools.common import Failed
from mcaudit_tools.files import copy_file, exchange_names, replace_link, sync_files, sync_folder


class Targets(typing.NamedTuple):
    """The targets of a link in a folder that is moved."""

    before: str
    anywhere: str  # leads to the same from both places
    after: str


class Adoption:
    """The move of the plain folder of a site among its sets. Where anything fails the folder is as it was."""

    def __init__(self, site, folder, scratch):
        """Takes the site, the path of the set that its folder becomes, and a folder in which that can be made."""
        self.site, self.folder, self.scratch = site, folder, scratch
        self.links = moved_links(site.path, folder)

    def run(self):
        """Moves the folder; where the sets are on another disk it is copied there."""
        if os.stat(self.site.path).st_dev == os.stat(self.site.sets).st_dev:
            self.rename()
        else:
            self.copy()

    def rename(self):
        """Moves the folder."""
        try:
            relink(self.site.path, {name: it.anywhere for name, it in self.links.items()})
            with self.swapped(self.folder):
                self.finish_links(self.folder)
                sync_folder(self.site.sets)
        except BaseException:
            relink(self.site.path, {name: it.before for name, it in self.links.items()})
            raise

    def copy(self):
        """Copies the folder, and puts the link in its place; it stays beside SITE until then."""
        folder, own = os.path.split(self.site.path)
        aside, made = tempfile.mkdtemp(prefix=f".{own[:80]}.", dir=folder), os.path.join(self.scratch, "first")
        try:
            shutil.copytree(self.site.path, made, symlinks=True, copy_function=copy_file)
            self.finish_links(made)
            sync_files(made)
            os.rename(made, self.folder)
            with self.swapped(os.path.join(aside, "link")):
                sync_folder(self.site.sets)
        except BaseException:
            shutil.rmtree(self.folder, ignore_errors=True)
            raise
        finally:
            if os.path.isdir(self.site.path):
                shutil.rmtree(aside, ignore_errors=True)

    def finish_links(self, folder):
        """Has the links of the set, which lie in this folder, lead to where they are to."""
        relink(folder, {name: it.after for name, it in self.links.items()})

    @contextlib.contextmanager
    def swapped(self, place):
        """Puts the folder into another place, and a link to the set into its own; where anything fails here SITE is as
        it was."""
        path, name = self.site.path, os.path.basename(self.folder)
        os.symlink(self.site.target_of(name), place)
        is_exchanged = exchange_names(path, place)
        if not is_exchanged:
            os.unlink(place)
            os.rename(path, place)
        try:
            yield
            if is_exchanged:
                sync_folder(os.path.dirname(path))
            else:
                self.site.lead_to(name)
        except BaseException:
            if is_exchanged:
                exchange_names(path, place)
                os.unlink(place)
            else:
                os.rename(place, path)
            raise


def moved_links(folder, place):
    """Returns the targets of each relative link in the folder, which is to lead from another place to where it
    leads."""
    found = {}
    at = os.path.join(os.path.realpath(os.path.dirname(place)), os.path.basename(place))
    for entry in os.scandir(folder):
        if entry.is_symlink():
            if not os.path.exists(entry.path):
                raise Failed(f"{entry.path} leads nowhere")
            target = os.readlink(entry.path)
            if not os.path.isabs(target):
                path = os.path.normpath(os.path.join(os.path.realpath(folder), target))
                found[entry.name] = Targets(target, path, os.path.relpath(path, at))
    return found


def relink(folder, targets):
    """Has links in the folder lead to these targets, by name: each of them to the old or to the new one at each
    moment."""
    for name, target in targets.items():
        made = os.path.join(folder, f".{name[:80]}.new")
        with contextlib.suppress(FileNotFoundError):
            os.unlink(made)
        replace_link(os.path.join(folder, name), target, made)
