"""Reports of source-specific groups (SSM, 232.0.0.0/8) that ask for every source: routers ignore them (RFC 4604)."""
from mcaudit_tools import igmp

VERSIONS = {igmp.REPORT_1: "1", igmp.REPORT_2: "2"}  # of IGMP, whose reports ask for every source of their group


class Unheeded:
    """Counts such reports, by their kind and their group."""

    def __init__(self):
        """Begins with none."""
        self.counts = {}

    def take(self, report):
        """Takes a report."""
        for group, is_every in igmp.groups_of(report):
            if is_every and group[0] == igmp.SSM:
                key = VERSIONS.get(report[0], "3 in EXCLUDE mode"), group
                self.counts[key] = self.counts.get(key, 0) + 1

    def sentences(self):
        """Yields how many came of each kind and group."""
        for (kind, group), count in self.counts.items():
            yield (f"SSM group {igmp.dotted(group)}: reports of IGMP version {kind}, which ask for every source, so "
                   f"that SSM routers ignore them: {count}")
