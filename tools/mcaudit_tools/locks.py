"""Locks: of a file, which is waited for or not, and of a folder. Each ends with the program that has it."""
import contextlib
import fcntl
import os
import time

from mcaudit_tools.common import Failed
from mcaudit_tools.files import failing

PATIENCE = 10  # seconds that a lock is waited for


@contextlib.contextmanager
def lock_file(path):
    """Gives the descriptor of a lock's file, which is made where it isn't there."""
    flags = os.O_NOFOLLOW | os.O_CLOEXEC | os.O_NONBLOCK
    with failing(f"{path} can't be locked"):
        try:
            opened = os.open(path, os.O_RDWR | os.O_CREAT | flags, 0o644)
        except PermissionError:
            opened = os.open(path, os.O_RDONLY | flags)
        file = os.fdopen(opened, "rb")
    with file:
        yield opened


def try_lock(opened):
    """Takes the lock of an open file or folder for this program alone. Returns whether it could."""
    try:
        fcntl.flock(opened, fcntl.LOCK_EX | fcntl.LOCK_NB)
    except BlockingIOError:
        return False
    return True


@contextlib.contextmanager
def hold(path):
    """Holds the lock of this file, which is waited for some seconds."""
    with lock_file(path) as opened:
        until = time.monotonic() + PATIENCE
        while not try_lock(opened):
            if time.monotonic() >= until:
                raise Failed(f"{path} is held by another run for {PATIENCE} s")
            time.sleep(0.05)
        yield


def lock_folder(path):
    """Opens a folder and takes its lock. Returns the descriptor, with which the lock ends."""
    opened = os.open(path, os.O_RDONLY | os.O_DIRECTORY | os.O_CLOEXEC)
    fcntl.flock(opened, fcntl.LOCK_EX)
    return opened
