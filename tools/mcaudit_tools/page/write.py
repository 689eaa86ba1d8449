"""Where a page goes: into a file, whole or not at all, or to standard output."""
import os
import sys

from mcaudit_tools.files import beside, failing, printing


def write_page(path, page, sentence=None):
    """Writes the page into the file, whole or not at all, and says what it is, where there is something to say; or to
    standard output or a device."""
    data = page.encode("utf-8", "replace")
    if path is None:
        with printing():
            sys.stdout.buffer.write(data)
            sys.stdout.flush()
    elif os.path.exists(path) and not os.path.isfile(path):
        with failing(f"{path} can't be written"), open(path, "wb") as file:
            file.write(data)
    else:
        with beside(path) as file:
            file.write(data)
            with printing():
                print(*([f"{path}: {sentence}"] if sentence else []), sep="", end="\n" * bool(sentence), flush=True)
