"""How one list comes into its file, and what is told beside it, where that lies in a site."""
import os

from mcaudit_tools.common import Failed, say
from mcaudit_tools.files import write_beside
from mcaudit_tools.listed import Listed
from mcaudit_tools.sets import record, site_of
from mcaudit_tools.topology import read_routers


def write_list(path, data, origin):
    """Writes a list into its file: in a site under the lock of whoever makes sets, and with where it comes from."""
    folder = os.path.dirname(path)
    site = site_of(folder)
    if site is None:
        write_beside(path, data)
        return
    with site.writing():
        write_beside(path, data)
        record(folder, {os.path.basename(path): origin})


def tell_strangers(words, task):
    """Names who speaks as a multicast router and is no listed one, where the list goes into a site that says which
    are."""
    site = site_of(os.path.dirname(words.o))
    if site is None or not os.path.lexists(os.path.join(site.folder(), "topology")):
        return
    try:
        listed = Listed(site.folder(), read_routers(site.folder(), site.path))
    except Failed as fault:
        say(f"whether all who speak as multicast routers are listed isn't known: {fault}")
        return
    unknown = listed.sentence([(words.device or "the LAN", task.speakers, task.own)])
    for sentence in [unknown] * bool(unknown) if listed.missing else task.speakers.sentences(listed, task.own):
        say(sentence)
