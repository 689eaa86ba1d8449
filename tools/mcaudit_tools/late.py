"""What was written into a set after the next one was made of it, by whoever had its path before: an editor, or a copy
that took long. A set keeps in `.carried` of which set it was made, how each file was in both then, and how the files of
some sets before it were.
"""
import contextlib
import filecmp
import json
import os
import stat

from mcaudit_tools.common import Failed
from mcaudit_tools.files import read_json

FILE = ".carried"
MOST_BYTES = 16 << 20
MOST_SETS = 8  # that are looked into, beside the one of which a set was made


def state_of(path):
    """Returns what another writing changes of a file or a link, and of all that a folder has; None where nothing is
    there."""
    try:
        found = os.lstat(path)
        if stat.S_ISDIR(found.st_mode):
            return {it: state_of(os.path.join(path, it)) for it in sorted(os.listdir(path))}
        return [found.st_size, found.st_mtime_ns]
    except FileNotFoundError:
        return None


def states_of(folder, is_left_out):
    """Returns the state of each file of a set, by name."""
    return {it: state_of(os.path.join(folder, it)) for it in sorted(os.listdir(folder)) if not is_left_out(it)}


def text_of(name, before, after, others):
    """Returns the text of `.carried`: the states of the files in the set of this name and in the new one, and by name
    those in other sets, as many as there is room for."""
    files = {it: [before.get(it), after.get(it)] for it in sorted({*before, *after})}
    for most in range(len(others), -1, -1):
        kept = {"files": files, "from": name, "others": dict(list(others.items())[:most]), "version": 1}
        text = json.dumps(kept, separators=(",", ":")).encode() + b"\n"
        if len(text) <= MOST_BYTES:
            break
    return text


class Late:
    """What was written late into the set of which another one was made, and into some before it."""

    def __init__(self, folder, is_left_out, is_replaced):
        """Takes the folder of the set that was made, which files no set has from another, and which are left aside."""
        self.folder, self.is_left_out, self.is_replaced = folder, is_left_out, is_replaced
        self.files, self.seen = {}, {}  # how the files were, before and after; and how they are now, by set
        self.written, self.both = {}, []  # the set by name of what is to be carried; name and set of what changed twice
        with contextlib.suppress(Failed, ValueError, KeyError, TypeError, AttributeError, RecursionError):
            found = read_json(os.path.join(folder, FILE), MOST_BYTES)
            self.files = {it: (before, after) for it, (before, after) in found["files"].items()}
            told = {found["from"]: {it: before for it, (before, _) in self.files.items()}, **found.get("others", {})}
            for name, states in told.items() if found["version"] == 1 else ():
                if os.path.basename(name) == name and name not in ("", ".", ".."):
                    self.look(os.path.join(os.path.dirname(folder), name), states)

    def look(self, earlier, states):
        """Looks for what was written into an earlier set, whose files were so."""
        if os.path.islink(earlier) or not os.path.isdir(earlier):
            return
        self.seen[os.path.basename(earlier)] = states_of(earlier, self.is_left_out)
        for name, now in self.seen[os.path.basename(earlier)].items():
            here = os.path.join(self.folder, name)
            if self.is_replaced(name) or now in (None, states.get(name)) or is_same(os.path.join(earlier, name), here):
                continue
            before, after = self.files.get(name, (None, None))
            is_lost = state_of(here) != after or before is not None and after is None
            if is_lost or name in self.written:
                self.both.append((name, earlier))
            else:
                self.written[name] = earlier

    def others(self):
        """Returns how the files of these sets are, as the next set keeps it."""
        return dict(list(self.seen.items())[:MOST_SETS])

    def sentences(self, named):
        """Returns what a person is to know of it, of a site of this name."""
        new = os.path.basename(self.folder)
        written, both = ([(it, os.path.basename(folder)) for it, folder in of]
                         for of in (self.written.items(), self.both))
        return [*(f"{named}/{it} is what was written into {old} after {new} had been made of it"
                  for it, old in written),
                *(f"{named}/{it} was written in {new} and also in {old}, after {new} had been made of it: what {old} "
                  "has is not in the new set" for it, old in both)]


def is_same(one, two):
    """Whether both are files with the same bytes, or links that lead to the same place."""
    try:
        kinds = [stat.S_IFMT(os.lstat(it).st_mode) for it in (one, two)]
        if kinds == [stat.S_IFLNK] * 2:
            return os.readlink(one) == os.readlink(two)
        return kinds == [stat.S_IFREG] * 2 and filecmp.cmp(one, two, shallow=False)
    except OSError:
        return False
