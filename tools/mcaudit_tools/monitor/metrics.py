"""The metrics of a run, as Prometheus reads them."""
import time

from mcaudit_tools.ages import age_of

NAMED = {"router": "router", "lan": "LAN"}  # by label


def samples_of(work):
    """Returns the metrics of a run: name, what it says, and labels and value of each sample."""
    judged, state = work.judged if work.is_answered() else None, work.state
    one = [("up", "Whether the last run judged the domain.", int(judged is not None)),
           ("last_run_timestamp_seconds", "When the last run ended.", int(time.time())),
           ("last_success_timestamp_seconds", "When the last run that judged the domain ended.",
            state.get("last_success")),
           ("last_change_timestamp_seconds", "When something had changed since the run before.",
            state.get("last_change")),
           ("last_fault_change_timestamp_seconds",
            "When a fault had come, gone or become another since the run before.", state.get("last_fault_change"))]
    if judged is not None:
        one += [("verdict", "Whether every listed flow is right.", int(judged.is_right)),
                ("flows_right", "Listed flows that are right.", judged.counts["right"]),
                ("flows_wrong", "Listed flows that are not right.", judged.counts["wrong"]),
                ("flows_unwanted", "Listed flows that are right and wanted by no LAN.", judged.counts["unwanted"]),
                ("unlisted_pairs", "Sources and groups in the caches that belong to no listed flow.", judged.unlisted),
                ("wants_unanswered", "What hosts of a LAN ask for and no listed flow answers, counted for each LAN.",
                 judged.wants.count)]
    metrics = [(name, about, [({}, value)]) for name, about, value in one if value is not None]
    return metrics + age_samples(work.ages()) + (work.beside.samples() if judged and work.beside else [])


def age_samples(ages):
    """Returns the metrics of how old the tables and the lists are, and of which lists were decided."""
    now, found = time.time(), []
    for of, name, label, times in (("tables were read", "table", "router", ages.tables()),
                                   ("reports were gathered", "reports", "lan", ages.reports())):
        times = {it: max(0, when) for it, when in times.items()}
        found.append((f"{name}_read_timestamp_seconds", f"When the {NAMED[label]}'s {of}.",
                      [({label: it}, when) for it, when in times.items()]))
        found.append((f"{name}_age_seconds", f"How long before the end of the last run the {NAMED[label]}'s {of}.",
                      [({label: it}, age_of(when, now)) for it, when in times.items()]))
    found.append(("reports_decided", "1 for a LAN whose list an operator decided, so that it has no age.",
                  [({"lan": it}, 1) for it in ages.decided()]))
    return found


def text_of(work):
    """Returns the text of the file for Prometheus."""
    lines = []
    for name, about, samples in samples_of(work):
        if samples:
            lines += [f"# HELP mcaudit_{name} {about}", f"# TYPE mcaudit_{name} gauge"]
        for labels, value in samples:
            lines.append(f"mcaudit_{name}{labels_text({**work.words.labels, **labels})} {value}")
    return ("\n".join(lines) + "\n").encode(errors="replace")


def labels_text(labels):
    """Returns labels as Prometheus reads them."""
    escapes = str.maketrans({"\\": r"\\", '"': r'\"', "\n": r"\n"})
    return "{" + ",".join(f'{name}="{it.translate(escapes)}"' for name, it in labels.items()) + "}" if labels else ""
