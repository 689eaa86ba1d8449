"""The line of a run that Nagios and Icinga read, and its status."""
import time

from mcaudit_tools.ages import LATER, age_of
from mcaudit_tools.common import CUT, clean, cut

MOST_LETTERS = 300  # of what a plugin says, beside what that rests on
MOST_PART = 150  # letters of each part of what the verdict rests on
MOST_PARTS = 350  # letters of all of them
WORDS = "OK", "WARNING", "CRITICAL", "UNKNOWN"  # of a plugin's statuses


def warnings_of(work):
    """Returns what is to be warned of where the verdict is yes."""
    found = []
    if work.judged.unwanted:
        found.append(f"{len(work.judged.unwanted)} wanted by nobody: {', '.join(work.judged.unwanted)}")
    if work.origins_fault and (work.words.warn_age or work.words.warn_reports):
        found.append(f"how old the files are isn't known: {work.origins_fault}")
    for what, most, times in (("tables of", work.words.warn_age, work.ages().tables),
                              ("reports of", work.words.warn_reports, work.ages().reports)):
        now = time.time()
        for name, written in times().items() if most else ():
            if written == LATER:
                found.append(f"{what} {name} are of a later time than now")
            elif age_of(written, now) > most:
                found.append(f"{what} {name} are {age_of(written, now)} s old")
    return found + (work.beside.warnings() if work.beside else [])


def changes_text(count, changes):
    """Returns how many changes there are, and the first of them, among which faults that came or went are the
    first."""
    text = ""
    for change in changes:
        if len(text) + len(change) > MOST_LETTERS // 2:
            text += CUT if text else ""
            break
        text += f"; {change}" if text else f": {change}"
    return f"changes {count}{text}"


def line_of(work):
    """Returns the one line of a run, and the status."""
    judged, parts = work.judged, []
    if not work.is_answered():
        status, text = 3, "; ".join(map(str, work.faults))
    elif not judged.is_right:
        status, text = 2, f"{len(judged.wrong)} of {judged.counts['flows']} flows wrong: {'; '.join(judged.wrong)}"
    else:
        warnings = warnings_of(work)
        status, text = int(bool(warnings)), ", ".join([f"{judged.counts['right']} flows right", *warnings])
    if status != 3:
        parts = [f"{judged.wants.count} wants unanswered"] if judged.wants.count else []
        parts.append(cut("; ".join(cut(it, MOST_PART) for it in work.beside.parts), MOST_PARTS))
    most = MOST_LETTERS
    if status != 3 and work.count:
        parts.append(changes_text(work.count, work.changes))
        most -= len(parts[-1]) + len(", " + CUT)
    line = f"MCAUDIT {WORDS[status]} - {clean(', '.join([cut(text, most), *parts]), '|')}"
    if status != 3:
        counts = judged.counts
        line += f" | right={counts['right']} wrong={counts['wrong']};;0 unwanted={counts['unwanted']};0"
        line += f" unlisted={judged.unlisted}"
        line += "" if judged.wants.count is None else f" asked={judged.wants.count}"
    return line, status
