"""How what tries things ends: its last line counts, and its status is 0 if none failed and one passed."""


def status_of(passed, failed):
    """Prints the last line, `N passed, M failed`. Returns the status."""
    print(f"{passed} passed, {failed} failed")
    return 1 if failed or not passed else 0
