"""Files: only regular ones are read, in bounds, and a file is written beside its place and then renamed."""
import contextlib
import errno
import json
import os
import stat

from mcaudit_tools.common import Failed

PIECE = 65536  # bytes that are read at a time
MOST_DIGITS = 20  # of a number of JSON
AT_FDCWD, RENAME_EXCHANGE = -100, 2  # of the call of Linux that exchanges


@contextlib.contextmanager
def failing(sentence):
    """Fails with the sentence and the reason, where a call of the system fails in it."""
    try:
        yield
    except OSError as fault:
        raise Failed(f"{sentence}: {fault.strerror or type(fault).__name__}") from fault


def open_regular(path, named=None):
    """Opens a file to be read as bytes, where it is a regular one: a pipe, a device or a folder is never waited for. It
    is told by its path, or by another name."""
    with failing(f"{named or path} can't be read"):
        opened = os.open(path, os.O_RDONLY | os.O_NONBLOCK | os.O_CLOEXEC | os.O_NOCTTY)
        if stat.S_ISREG(os.fstat(opened).st_mode):
            return os.fdopen(opened, "rb")
        os.close(opened)
        raise Failed(f"{named or path} can't be read: it is not a regular file")


def read_regular(path, most, named=None):
    """Returns the bytes of a regular file, which has at most so many."""
    with open_regular(path, named) as file, failing(f"{named or path} can't be read"):
        data = file.read(most + 1)
    if len(data) > most:
        raise Failed(f"{named or path} can't be read: it has more than {most} bytes")
    return data


def whole(digits):
    """Reads a number of JSON, which is a whole one of at most so many digits: a longer one may take hours."""
    if len(digits) > MOST_DIGITS:
        raise ValueError("a number of too many digits")
    return int(digits)


def read_json(path, most):
    """Returns the value of a regular file of JSON, which has at most so many bytes. Where its text is no JSON, that is
    a ValueError, or a RecursionError."""
    return json.loads(read_regular(path, most), parse_int=whole)


@contextlib.contextmanager
def open_folder(path):
    """Gives the descriptor of an open folder."""
    opened = os.open(path, os.O_RDONLY | os.O_DIRECTORY | os.O_CLOEXEC)
    try:
        yield opened
    finally:
        os.close(opened)


def sync_folder(path):
    """Puts the names of a folder on the disk."""
    with open_folder(path) as opened:
        try:
            os.fsync(opened)
        except OSError as fault:
            if fault.errno != errno.EINVAL:  # of a file system that has no such call
                raise


def replace_link(path, target, made):
    """Has a link lead to a target, by a new link that is made at another path of the same disk: to the old or to the
    new target at each moment."""
    os.symlink(target, made)
    os.replace(made, path)


def exchange_names(one, other):
    """Exchanges what two paths name, in one step. Returns whether that was done: older kernels and C libraries can't,
    and neither can some file systems."""
    import ctypes  # pylint: disable=import-outside-toplevel
    try:
        call = ctypes.CDLL(None).renameat2
    except (OSError, AttributeError):
        return False
    return call(AT_FDCWD, os.fsencode(one), AT_FDCWD, os.fsencode(other), RENAME_EXCHANGE) == 0


def sync_files(folder):
    """Puts a folder and its files on the disk."""
    for entry in os.scandir(folder):
        if entry.is_file():
            with open(entry.path, "rb") as file:
                os.fsync(file.fileno())
    sync_folder(folder)


def copy(path, target, named):
    """Copies a file, a link or a folder as it is; what leads nowhere or is neither is told by this name."""
    with failing(f"{named} can't be read"):
        kind = os.stat(path).st_mode
    if os.path.islink(path):
        os.symlink(os.readlink(path), target)
    elif stat.S_ISDIR(kind):
        import shutil  # pylint: disable=import-outside-toplevel
        shutil.copytree(path, target, symlinks=True, copy_function=copy_file)
    else:
        copy_file(path, target, named)


def copy_file(path, target, named=None):
    """Copies a file, of a folder or of this name, which is a regular one: what is none may have no end."""
    if not stat.S_ISREG(os.lstat(path).st_mode):
        raise Failed(f"{named or path} is not a regular file")
    import shutil  # pylint: disable=import-outside-toplevel
    shutil.copy2(path, target)


def printing():
    """Tells that standard output can't be written, where that fails in it."""
    return failing("standard output can't be written")


@contextlib.contextmanager
def beside(path, mode=None, is_new=False):
    """Gives a file beside the path, or what a link there leads to, to be written. At the end it is put on the disk and
    renamed; where anything fails, the path stays as it was, and nothing is left. Nothing may be there of a new one."""
    # (it and shutil, with which come all compressors, are loaded by whoever writes or copies a file)
    import tempfile  # pylint: disable=import-outside-toplevel
    folder, name = os.path.split(path if is_new else os.path.realpath(path))
    with failing(f"{path} can't be written"):
        opened, made = tempfile.mkstemp(prefix=f".{name[:80]}.", dir=folder)
        try:
            with os.fdopen(opened, "wb") as file:
                os.fchmod(file.fileno(), 0o666 & ~umask() if mode is None else mode)
                yield file
                file.flush()
                os.fsync(file.fileno())
                if os.fstat(file.fileno()).st_size != file.tell():
                    raise Failed(f"{path} can't be written: the disk has not what was written")
            if is_new:
                os.link(made, path)
            elif os.path.lexists(path) and not os.path.isfile(path):
                raise Failed(f"{path} is not a plain file")
            else:
                os.replace(made, os.path.join(folder, name))
        finally:
            with contextlib.suppress(OSError):  # renamed, it is there no more
                os.unlink(made)
        sync_folder(folder)


def write_beside(path, data, mode=None):
    """Writes the bytes as the file of the path, whole or not at all."""
    with beside(path, mode) as file:
        file.write(data)


def umask():
    """Returns the rights that new files don't get."""
    mask = os.umask(0o077)
    os.umask(mask)
    return mask
