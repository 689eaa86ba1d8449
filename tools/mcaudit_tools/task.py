"""What is to be done for one list, wherever its reports come from."""
import argparse
import dataclasses

from mcaudit_tools.capture import SECOND
from mcaudit_tools.window import Rules, list_of


@dataclasses.dataclass
class Task:
    """One list: where it is gathered, what it has besides, and what tells a person of it."""

    words: argparse.Namespace
    shell: list
    device: "str | None"
    statics: list
    say: object
    is_empty_allowed: bool = False
    empty_option: str = "--empty"
    is_asking: bool = False
    others: "int | None" = None  # routers that lie on the LAN, where nothing is asked for their sake
    speakers: object = None  # takes all that is heard, beside the list
    own: set = dataclasses.field(default_factory=set)  # gets the addresses by which it is asked

    def rules(self, networks, is_live):
        """Returns what queries count."""
        given = self.words.networks
        known = [*(networks or ()), *given] if networks is not None or given else None
        return Rules(known, self.words.queriers, self.words.slack * SECOND, self.words.queries, is_live,
                     self.words.fold)

    def list_of(self, gathering):
        """Makes the list of what was gathered."""
        return list_of(gathering, self.statics, self.is_empty_allowed, self.empty_option)
