"""The domain as a graph: Graphviz lays it out by sizes alone, and the page's own elements are put there."""
import collections
import json

from mcaudit_tools.common import Failed, find_tool
from mcaudit_tools.page.markup import tag
from mcaudit_tools.programs import run

DRAWING = 60  # seconds that the graph may take
MOST_DRAWN = 256 << 20  # bytes of it
LETTER, ROW, NAME, PAD, PILL = 7.3, 17, 24, 10, 30
SIGN = 16  # room for a sign above and below a LAN, and below a router
EDGE = 24  # room around the graph
Box = collections.namedtuple("Box", "x y width height")


class Graph:
    """The places of LANs, routers and their vifs."""

    def __init__(self, domain, roots):
        """Takes the domain, drawn from the LANs roots on."""
        self.domain, self.roots = domain, roots
        self.left, self.right, self.other = (collections.defaultdict(list) for _ in range(3))
        self.boxes, self.paths, self.size = {}, {}, (0, 0)
        near = self.distances()
        for number, port in enumerate(domain.ports):
            side = (self.other if port.lan is None else
                    self.left if near["l", port.lan] < near["r", port.router] else self.right)
            side[port.router].append(number)

    def distances(self):
        """Returns how far each LAN and router is from the nearest root; where none reaches it, from its lowest LAN."""
        beside = collections.defaultdict(list)
        for port in self.domain.ports:
            if port.lan is not None:
                beside["l", port.lan].append(("r", port.router))
                beside["r", port.router].append(("l", port.lan))
        near = {}
        for starts in [self.roots, *([lan] for lan in range(len(self.domain.lans)))]:
            waiting = collections.deque(("l", lan) for lan in starts if ("l", lan) not in near)
            near |= dict.fromkeys(waiting, 0)
            while waiting:
                here = waiting.popleft()
                for other in beside[here]:
                    if other not in near:
                        near[other] = near[here] + 1
                        waiting.append(other)
        return near

    def cells(self, router):
        """Returns the router's widths, of its left and right vifs, and its rows of these."""
        def width(ports):
            return max((len(self.domain.ports[it].device) for it in ports), default=0) * LETTER + PAD
        left, right = width(self.left[router]), width(self.right[router])
        wanted = max(len(self.domain.routers[router]) * LETTER * 1.1 + 2 * PAD, width(self.other[router]) + PAD, 64)
        more = max(0, wanted - left - right) / 2
        return round(left + more), round(right + more), max(len(self.left[router]), len(self.right[router]))

    def router_words(self, router):
        """Returns the router for Graphviz: a table of empty cells, of which each vif's is a port."""
        left, right, rows = self.cells(router)

        def cell(ports, row, width):
            port = f' PORT="p{ports[row]}"' if row < len(ports) else ""
            return f'<TD{port} WIDTH="{width}" HEIGHT="{ROW}" FIXEDSIZE="TRUE"></TD>'

        def line(height):
            return f'<TR><TD COLSPAN="2" WIDTH="{left + right}" HEIGHT="{height}" FIXEDSIZE="TRUE"></TD></TR>'
        cells = [cell(self.left[router], it, left) + cell(self.right[router], it, right) for it in range(rows)]
        table = line(NAME) + "".join(f"<TR>{it}</TR>" for it in cells) + line(ROW * len(self.other[router]) + SIGN)
        return (f'r{router}[shape=plain,label=<<TABLE BORDER="0" CELLBORDER="0" CELLSPACING="0" CELLPADDING="0">{table}'
                "</TABLE>>];")

    def words(self):
        """Returns the graph for Graphviz, which sees no name of the domain."""
        used = sorted({it.router for it in self.domain.ports} | set(range(len(self.domain.routers))))
        lines = ["digraph{rankdir=LR;nodesep=0.3;ranksep=1.35;edge[dir=none];"]
        lines += [self.router_words(router) for router in used]
        for lan, name in enumerate(self.domain.lans):
            width = (max(len(name) * LETTER * 1.1, 40) + 2 * PAD + 6) / 72
            height = (PILL + 2 * SIGN) / 72
            lines.append(f'l{lan}[shape=box,label="",fixedsize=true,width={width:.3f},height={height:.3f}];')
        for router in used:
            lines += [f"l{self.domain.ports[it].lan}:e->r{router}:p{it}:w[id={it}];" for it in self.left[router]]
            lines += [f"r{router}:p{it}:e->l{self.domain.ports[it].lan}:w[id={it}];" for it in self.right[router]]
        return "\n".join([*lines, "}"])

    def lay_out(self):
        """Has Graphviz lay the graph out. Returns whether it did so in time."""
        done = run([find_tool("dot"), "-Tjson0"], self.words().encode(), DRAWING, MOST_DRAWN)
        if done.is_late:
            return False
        if done.status != 0 or done.is_long:
            raise Failed(f"dot can't draw the domain: {' '.join(done.sentences())[:200]}")
        try:
            self.place(json.loads(done.printed))
        except (ValueError, LookupError, TypeError, RecursionError) as fault:
            raise Failed("what dot drew can't be read") from fault
        return True

    def place(self, drawn):
        """Takes the places that Graphviz tells, in points from the lower left."""
        *_, width, height = map(float, drawn["bb"].split(","))
        self.size = round(width) + 2 * EDGE, round(height) + 2 * EDGE

        def point(text):
            x, y = map(float, text.split(","))
            return round(x + EDGE, 1), round(height - y + EDGE, 1)
        for it in drawn["objects"]:
            wide, high = float(it["width"]) * 72, float(it["height"]) * 72
            x, y = point(it["pos"])
            self.boxes[it["name"]] = Box(round(x - wide / 2, 1), round(y - high / 2, 1), round(wide, 1), round(high, 1))
        for it in drawn.get("edges", []):
            self.paths[int(it["id"])] = [point(text) for text in it["pos"].split(" ")]

    def port_markup(self, number, x, y, anchor):
        """Returns a vif's cell."""
        port = self.domain.ports[number]
        missing = "absent" if port.vif is None else "unplaced" if port.lan is None else None
        about = f"{self.domain.routers[port.router]} {port.device}: " + (
            "on no LAN" if port.lan is None else f"on {self.domain.lans[port.lan]}") + (
            ", no vif" if port.vif is None else f", vif {port.vif}")
        return tag("g", tag("title", about), tag("text", port.device, x=x, y=y, text_anchor=anchor),
                   id=f"p{number}", class_="port" + (f" {missing}" if missing else ""))

    def router_markup(self, router):
        """Returns a router with its vifs: those towards the roots on the left."""
        box, (_, _, rows) = self.boxes[f"r{router}"], self.cells(router)
        cells, top = [], box.y + NAME
        for ports, first, x, anchor in ((self.left[router], 0, box.x + 6, "start"),
                                        (self.right[router], 0, box.x + box.width - 6, "end"),
                                        (self.other[router], rows, box.x + 6, "start")):
            cells += [self.port_markup(it, round(x, 1), round(top + ROW * row + 12, 1), anchor)
                      for row, it in enumerate(ports, first)]
        middle = round(box.x + box.width / 2, 1)
        return tag("g", tag("title", f"router {self.domain.routers[router]}"),
                   tag("rect", x=box.x, y=box.y, width=box.width, height=round(box.height - SIGN, 1), rx=5),
                   name_markup(self.domain.routers[router], middle, box.y + 16),
                   *cells, id=f"r{router}", class_="router")

    def lan_markup(self, lan, name):
        """Returns a LAN of this name."""
        box = self.boxes[f"l{lan}"]
        return tag("g", tag("title", f"LAN {name}"),
                   tag("rect", x=box.x, y=box.y + SIGN, width=box.width, height=PILL, rx=PILL // 2),
                   name_markup(name, round(box.x + box.width / 2, 1), box.y + SIGN + 20), id=f"l{lan}", class_="lan")

    def markup(self):
        """Returns the graph as SVG."""
        width, height = self.size
        arrows = [tag("marker", tag("path", d="M0 0L10 5L0 10z"), id=f"to-{kind}", viewBox="0 0 10 10", refX=9, refY=5,
                      markerWidth=12, markerHeight=12, markerUnits="userSpaceOnUse", orient="auto-start-reverse",
                      class_=kind) for kind in ("way", "fault", "mend")]
        paths = [tag("path", d=f"M{first[0]} {first[1]}C" + " ".join(f"{x} {y}" for x, y in points), id=f"e{number}",
                     class_="absent" if self.domain.ports[number].vif is None else None)
                 for number, (first, *points) in sorted(self.paths.items())]
        return tag("svg", tag("defs", *arrows), tag("g", *paths, id="paths"),
                   *(self.router_markup(it) for it in range(len(self.domain.routers))),
                   *(self.lan_markup(*it) for it in enumerate(self.domain.lans)), tag("g", id="signs"),
                   id="drawing", viewBox=f"0 0 {width} {height}", width=width, height=height, role="img",
                   aria_label="The domain's LANs and routers; what is marked in it is written beside it")


def name_markup(name, x, y):
    """Returns the name of a router or a LAN, in the middle of it."""
    return tag("text", name, x=x, y=y, text_anchor="middle", class_="name")


def roots_of(audit):
    """Returns the LANs from which the graph is drawn: those that flows come from, or where these are most of all LANs
    the one that most flows come from."""
    counts = collections.Counter(flow["lan"] for flow in audit.flows)
    if 2 * len(counts) <= len(audit.domain.lans):
        return sorted(counts)
    return [min(counts, key=lambda lan: (-counts[lan], lan))]
