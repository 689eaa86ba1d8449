"""How copies of a packet go by entries: a flight, copy by copy, and whether a flow is right by it. What is printed
rests on what the proved program finds: a flight here only chooses what is proposed to it."""
import collections
import typing

GREATEST = 255  # the time to live of a packet that shows most


class Reach(typing.NamedTuple):
    """How a LAN is reached."""

    rank: int  # routers that the copy has passed
    need: int  # the least time to live that reaches it
    router: "str | None"  # that forwards onto it; none onto the source's LAN
    vif: "int | None"
    parent: "str | None"  # the LAN from which that router takes it


class Flight(typing.NamedTuple):
    """What comes of a packet."""

    reach: dict  # by LAN
    seconds: list  # LAN, router and vif of each further copy onto a LAN
    strays: list  # router and vif of each copy that leaves the listed LANs
    opens: list  # router, vif and LAN, where a copy comes to a router that has an entry for every source alone

    @property
    def faults(self):
        """How many copies are too many, or gone."""
        return len(self.seconds) + len(self.strays) + len(self.opens)


def fly(task, entries):
    """Returns what comes of a packet with the greatest time to live, first come, first served; further copies onto a
    LAN go no further."""
    placed, on = task.domain.placed, task.domain.on
    reach = {task.lan: Reach(0, 1, None, None, None)}
    found, waiting = Flight(reach, [], [], []), collections.deque([task.lan])
    while waiting:
        lan = waiting.popleft()
        rank, need, sender, sender_vif, _ = reach[lan]
        for router, vif in on[lan]:
            entry = entries.get(router)
            if entry is None:
                if router in task.every_source and (router, vif) != (sender, sender_vif):
                    found.opens.append((router, vif, lan))
                continue
            if entry[0] != vif or (router, vif) == (sender, sender_vif):
                continue
            for to_vif, threshold in entry[1].items():
                if GREATEST - rank <= threshold:
                    continue
                to_lan = placed[router].get(to_vif)
                if to_lan is None:
                    found.strays.append((router, to_vif))
                elif to_lan in reach:
                    found.seconds.append((to_lan, router, to_vif))
                else:
                    reach[to_lan] = Reach(rank + 1, max(need, rank + threshold + 1), router, to_vif, lan)
                    waiting.append(to_lan)
    return found


def missed(task, flight):
    """Returns the wanting LANs that packets of the flow don't reach."""
    reach = flight.reach
    return [it for it in task.wanted if it not in reach or reach[it].need > task.ttl]


def is_right(task, flight):
    """Whether the flow is right by what comes of a packet."""
    return not flight.faults and not missed(task, flight)
