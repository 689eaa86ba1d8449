"""Tries many things beside one another and counts what is wrong: what the scripts beside it begin and end with."""
import os
import sys
from concurrent.futures import ThreadPoolExecutor

sys.path.append(os.path.join(os.path.dirname(os.path.abspath(__file__)), ".."))
from ended import status_of


def counts(count):
    """COUNT and FIRST, the numbers that may stand behind the program."""
    numbers = [int(word) for word in sys.argv[2:4]]
    return (*numbers, *(count, 0)[len(numbers):])


def try_all(tries, count, kinds, shower):
    """Makes the tries, and returns the status of them all: 0 if none failed and there are some.

    Each is a function and its arguments. It returns what is wrong, a list of texts, and the set of kinds that it showed.
    All together are COUNT things that pass or fail. What is wrong is printed, which of `kinds` no SHOWER showed, and
    last how many passed and failed."""
    failed, shown = 0, set()
    with ThreadPoolExecutor(os.cpu_count()) as pool:
        tried = [pool.submit(*it) for it in tries]
        for wrong, found in (it.result() for it in tried):
            shown |= found
            failed += len(wrong)
            print(*wrong, sep="\n", end="\n" if wrong else "")
    passed = count - failed
    if not kinds <= shown:
        failed += 1
        print(f"no {shower} shows {', '.join(sorted(kinds - shown))}")
    return status_of(passed, failed)
