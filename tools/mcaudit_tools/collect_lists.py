"""mcaudit-collect --from-daemon: the lists of the LANs beside the routers' tables, as their daemons believe them."""
import functools

from mcaudit_tools.believed import Beliefs, Options, by_place, judge_until, lans_of
from mcaudit_tools.daemon import Belief
from mcaudit_tools.gather import files_of, tell_empty
from mcaudit_tools.topology import check_lans, read_topology


def collect(collection):
    """Collects all routers with what their daemons believe, and makes the lists of the LANs. Returns what writes the
    lists into a folder, and returns the files that a set has of them."""
    words, names = collection.words, collection.words.empty_lan or ()
    listed = read_topology(words.site.folder(), words.site.path)
    check_lans(listed, {"--empty-lan": names})
    collection.beliefs_of = lambda name: Beliefs(listed.devices_of(name)) if listed.devices_of(name) else None
    lans = lans_of(listed, lambda name: Options(name in names, f"--empty-lan {name}", is_named=name in names))
    judge_until(lans, words.site.folder(), functools.partial(beliefs_of, collection, listed))
    for lan in lans:
        collection.tell(lan.name, [*lan.answers, *lan.sentences], lan.answers)
    tell_empty("--empty-lan", [it.name for it in lans if it.list.is_decided])
    return functools.partial(files_of, lans)


def beliefs_of(collection, listed):
    """Collects all routers. Returns what their daemons believe, by router and device."""
    collection.collect()
    missing = Belief(reason="its tables were not collected")
    return by_place({name: one.beliefs if not one.fault else dict.fromkeys(listed.devices_of(name), missing)
                     for name, one in collection.found.items()})
