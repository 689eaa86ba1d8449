"""Stands for a disk that fails: what the tools do by the system is done by this, where a case has a file that it heeds.

With the file sync.fails nothing can be put on the disk; with sync.forgets only the first line of a file is there then.
With tables.limit a router's tables can be written into files of only so many blocks, as where the disk is full once an
answer is there. Where the file mv.fails has the last name of what something is renamed to, that fails once; where
mv.term has it, the tool gets a TERM just before. With exchange.none no two names can be exchanged in one step.
"""
import builtins
import errno
import os
import signal

HERE = os.getcwd()
FSYNC, RENAME, REPLACE, OPEN = os.fsync, os.rename, os.replace, builtins.open


def names(heeded, target):
    """Whether the case's file has the last name of the target."""
    path = os.path.join(HERE, heeded)
    if not os.path.exists(path):
        return False
    with open(path, encoding="utf-8") as file:
        return file.read().strip() == os.path.basename(target)


def fsync(opened):
    """Puts a file on the disk."""
    if os.path.exists(os.path.join(HERE, "sync.fails")):
        raise OSError(errno.EIO, os.strerror(errno.EIO))
    FSYNC(opened)
    if os.path.exists(os.path.join(HERE, "sync.forgets")) and os.path.isfile(f"/proc/self/fd/{opened}"):
        with OPEN(f"/proc/self/fd/{opened}", "rb") as file:
            os.truncate(opened, len(file.readline()))


def open_limited(path, *how, **more):
    """Opens a file, and lets none become long once it is a router's table."""
    limit = os.path.join(HERE, "tables.limit")
    if os.path.basename(str(path)).startswith("ip_mr_") and os.path.exists(limit):
        import resource  # pylint: disable=import-outside-toplevel
        with OPEN(limit, encoding="ascii") as file:
            most = 512 * int(file.read())
        resource.setrlimit(resource.RLIMIT_FSIZE, (most, resource.RLIM_INFINITY))
    return OPEN(path, *how, **more)


def moving_by(move):
    """Returns what renames as the call of the system does."""
    def moved(source, target, **where):
        """Renames."""
        if names("mv.fails", target):
            os.unlink(os.path.join(HERE, "mv.fails"))
            raise OSError(errno.EIO, os.strerror(errno.EIO))
        if names("mv.term", target):
            os.kill(os.getpid(), signal.SIGTERM)
        move(source, target, **where)
    return moved


def without_a_library(*_, **__):
    """Has none of the calls that Python doesn't have by itself."""
    raise OSError(errno.ENOSYS, os.strerror(errno.ENOSYS))


if os.path.exists(os.path.join(HERE, "exchange.none")):
    import ctypes
    ctypes.CDLL = without_a_library
os.fsync, os.rename, os.replace = fsync, moving_by(RENAME), moving_by(REPLACE)
builtins.open = open_limited
