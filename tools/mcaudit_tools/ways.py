"""Routers and the ways to them: NAME=ADDRESS, in arguments and in files of them."""
import os
import re
import signal

from mcaudit_tools.common import Wrong, name_fault
from mcaudit_tools.files import failing, read_regular

SSH = "ssh -o BatchMode=yes -o ConnectTimeout=10"
REACH = [("--routers", "FILE", "take the routers of FILE too: NAME=ADDRESS, a line each"),
         ("--ssh", "COMMAND", "reach a HOST by `COMMAND HOST sh`")]  # options of whoever asks routers
MOST_BYTES = 1 << 20  # of a file of routers
HOST = re.compile(r"[A-Za-z0-9@:_.%][A-Za-z0-9@:_.%-]*")
COMMAND = re.compile(r"!.+", re.DOTALL)


class Router:
    """A router's name, and the way to it: a host, nothing for this machine, or `!` and a command."""

    def __init__(self, name, way):
        """Takes both."""
        self.name, self.way = name, way

    def shell(self, ssh):
        """Returns the arguments of the program that runs a shell on the router."""
        if self.way.startswith("!"):
            return ["sh", "-c", f"{self.way[1:]} sh"]
        return ["sh", "-c", f"{ssh} {self.way} sh"] if self.way else ["sh"]


def parse_router(word):
    """Reads NAME=ADDRESS."""
    name, is_way, way = word.partition("=")
    if not is_way:
        raise Wrong(f"{word} is not a valid NAME=ADDRESS")
    fault = name_fault(name)
    if fault:
        raise Wrong(f"{word}: {fault}")
    if way and not COMMAND.fullmatch(way) and not HOST.fullmatch(way):
        raise Wrong(f"{word}: the address is not a valid host or !COMMAND")
    return Router(name, way)


def read_routers(words, files):
    """Returns the routers of the arguments and of the files, whose comments are left aside; no name comes twice."""
    lines = (line for path in files for line in os.fsdecode(read_regular(path, MOST_BYTES)).split("\n"))
    routers = [parse_router(it) for it in [*words, *(it for it in lines if it and not it.startswith("#"))]]
    names = [it.name for it in routers]
    for number, name in enumerate(names):
        if name in names[:number]:
            raise Wrong(f"{name} is given twice")
    return routers


def become_shell(router, ssh):
    """Becomes the shell on the router, with this standard input and output."""
    signal.signal(signal.SIGPIPE, signal.SIG_DFL)
    words = router.shell(ssh)
    with failing(f"{words[0]} can't be run"):
        os.execvp(words[0], words)
