"""Folders of small domains, made at random: most of a domain's rows make a tree, and then some of it is turned. Some have
a stray near a source, with a fault behind it, and in some hosts ask for what no flow lists."""
import json
import os
import random
import struct

# as TOML has them between quotes
DEVICES = ["eth0", "eth1", 'br\\"7', "vlan\\\\3", "wg-é", "eth5", "eth6", "eth7"]
THRESHOLDS = [1, 1, 1, 1, 1, 2, 3, 4, 64, 254]
TTLS = [1, 2, 3, 3, 4, 64, 255]
GROUPS = ["239.1.2.3", "239.1.2.4", "232.0.0.9"]
SOURCES = ["10.0.0.5", "10.0.1.7"]
# What hosts ask for besides: groups of rows that no flow lists, of SSM, of services, and some that no router forwards;
# sources of such rows, and addresses that are no source's.
ASKED = ["239.7.7.1", "239.7.7.2", "239.7.7.3", "232.0.0.7", "239.8.0.1", "239.255.255.250", "224.0.1.40", "224.0.0.251",
         "3.7.7.1"]
ASKING = [*SOURCES, "10.9.0.1", "10.9.1.2", "10.9.2.3", "127.0.0.9", "0.0.0.5", "224.7.7.7"]
SERVICES = ["224.0.1.1", "224.0.1.22", "224.0.1.24", "224.0.1.35", "224.0.1.39", "224.0.1.40", "224.0.1.60", "224.0.1.75",
            "224.0.1.187", "224.0.23.12", "224.2.127.254", "239.195.255.255", "239.255.255.250", "239.255.255.253",
            "239.255.255.255"]
VIF_HEADER = "Interface      BytesIn  PktsIn  BytesOut PktsOut Flags Local    Remote\n"
CACHE_HEADER = "Group    Origin   Iif     Pkts    Bytes    Wrong Oifs\n"


def number_of(address):
    return struct.unpack(">I", bytes(map(int, address.split("."))))[0]


def dotted(number):
    return ".".join(str(byte) for byte in struct.pack(">I", number))


def plain(device):
    """A device as the kernel has it."""
    return device.replace('\\"', '"').replace("\\\\", "\\")


def report_of(records):
    """A report of these records, of type, group and sources, in hexadecimal."""
    body = b"".join(struct.pack(">BBHI", kind, 0, len(sources), number_of(group))
                    + b"".join(struct.pack(">I", number_of(source)) for source in sources)
                    for kind, group, sources in records)
    return with_checksum(b"\x22\0\0\0\0\0" + struct.pack(">H", len(records)) + body)


def older_report_of(kind, group):
    """A report of version 1 or 2, of this type, in hexadecimal."""
    return with_checksum(struct.pack(">BBHI", kind, 0, 0, number_of(group)))


def with_checksum(message):
    """A message whose checksum is 0, with the right one, in hexadecimal."""
    total = sum(struct.unpack(f">{len(message) // 2}H", message))
    while total >> 16:
        total = (total & 0xFFFF) + (total >> 16)
    return (message[:2] + struct.pack(">H", 0xFFFF - total) + message[4:]).hex()


def messages_of(records, size):
    """Reports of these records, so many in each."""
    return [report_of(records[first:first + size]) for first in range(0, len(records), size)]


class Made:
    """A domain that is made."""

    def __init__(self, seed):
        self.pick = random.Random(seed)
        pick = self.pick
        self.lans = [f"l{number}" for number in range(pick.randint(2, 6))]
        self.routers = [f"r{number}" for number in range(1, pick.randint(1, 5) + 1)]
        self.orders = {router: pick.choice(["little", "little", "big"]) for router in self.routers}
        self.interfaces = {router: self.interfaces_of() for router in self.routers}
        self.sources = {source: pick.choice(self.lans) for source in SOURCES[:pick.randint(1, 2)]}
        pairs = [(source, group) for source in self.sources for group in GROUPS]
        self.flows = [(source, group, pick.choice(TTLS)) for source, group in pick.sample(pairs, pick.randint(1, 2))]
        self.vifs = {router: self.vifs_of(router) for router in self.routers}
        self.rows = {router: [] for router in self.routers}
        for source, group, _ in self.flows:
            self.add_tree(source, group)
        for _ in range(pick.choice([0, 0, 1, 1, 2, 3])):
            self.turn_something()
        if pick.random() < 0.25:
            self.stray_near_the_source()
        if pick.random() < 0.5:
            self.add_asked()
        for router in self.routers:
            pick.shuffle(self.rows[router])

    def interfaces_of(self):
        lans = self.pick.choices(self.lans, k=self.pick.randint(1, 4))
        return dict(zip(self.pick.sample(DEVICES, len(lans)), lans))

    def vifs_of(self, router):
        """A router's vifs by number: device and flags."""
        numbers = self.pick.sample(range(32), len(self.interfaces[router]) + 1)
        vifs = {number: [device, 0] for number, device in zip(numbers, self.interfaces[router])}
        if self.pick.random() < 0.2:
            vifs[numbers[-1]] = self.pick.choice([["pimreg", 4], ["tun0", 1], ["none", 0], ["eth9", 0]])
        return vifs

    def add_tree(self, source, group):
        """Rows by which the source's packets go from LAN to LAN, as far as they come."""
        reached = [self.sources[source]]
        waiting = self.pick.sample(self.routers, len(self.routers))
        for lan in reached:
            for router in list(waiting):
                entry = [number for number, (device, _) in self.vifs[router].items()
                         if self.interfaces[router].get(device) == lan]
                if entry and self.pick.random() < 0.9:
                    waiting.remove(router)
                    self.rows[router].append([group, source, str(self.pick.choice(entry)), self.outgoing(router, reached)])

    def outgoing(self, router, reached):
        pairs = {}
        for number, (device, _) in self.vifs[router].items():
            lan = self.interfaces[router].get(device)
            if lan is not None and lan not in reached and self.pick.random() < 0.9:
                pairs[number] = self.pick.choice(THRESHOLDS)
                reached.append(lan)
        return pairs

    def turn_something(self):
        pick, router = self.pick, self.pick.choice(self.routers)
        source, group, _ = pick.choice(self.flows)
        vifs = list(self.vifs[router]) + [pick.randrange(32)]
        rows = [row for row in self.rows[router] if row[2] != "-1" and row[1] != "0.0.0.0"]
        change = pick.randrange(9)
        if change == 0 and rows:
            pick.choice(rows)[3][pick.choice(vifs)] = pick.choice(THRESHOLDS)
        elif change == 1 and rows:
            pick.choice(rows)[2] = str(pick.choice(vifs))
        elif change == 2 and rows:
            self.rows[router].remove(pick.choice(rows))
        elif change == 3:
            self.rows[router].append([pick.choice([group, "0.0.0.0"]), "0.0.0.0", str(pick.choice(vifs)), {vifs[0]: 1}])
        elif change == 4:
            self.rows[router].append([group, source, "-1", {}])
        elif change == 5:
            self.vifs[router][pick.choice(list(self.vifs[router]))][1] = pick.choice([1, 4, 8])
        elif change == 6:
            del self.vifs[router][pick.choice(list(self.vifs[router]))]
            if not self.vifs[router]:
                self.vifs[router][0] = ["eth9", 0]
        elif change == 7 and rows:
            row = pick.choice(rows)
            row[3] = {number: pick.choice(THRESHOLDS) for number in row[3]}
        else:
            self.add_unlisted(vifs)

    def add_unlisted(self, vifs):
        for _ in range(self.pick.choice([1, 2, 30])):
            source = f"10.9.{self.pick.randrange(4)}.{self.pick.randint(1, 9)}"
            group = f"{self.pick.choice([239, 239, 3])}.7.7.{self.pick.randint(1, 3)}"
            router = self.pick.choice(self.routers)
            if not any(row[:2] == [group, source] for row in self.rows[router]):
                self.rows[router].append([group, source, str(self.pick.choice(vifs)), self.some_pairs(router)])

    def some_pairs(self, router):
        """Outgoing vifs of any kind, mostly none."""
        if self.pick.random() < 0.7:
            return {}
        vifs = list(self.vifs[router]) + [self.pick.randrange(32)]
        return {vif: 1 for vif in self.pick.sample(vifs, self.pick.randint(1, min(2, len(vifs))))}

    def stray_near_the_source(self):
        """A vif that is on no LAN, by which the first routers of a flow send too; and, mostly, a fault behind them."""
        pick, (source, group, _) = self.pick, self.pick.choice(self.flows)
        for router in self.routers:
            start = {str(vif) for vif, (device, _) in self.vifs[router].items()
                     if self.interfaces[router].get(device) == self.sources[source]}
            rows = [row for row in self.rows[router] if row[:2] == [group, source] and row[2] in start]
            free = [vif for vif in range(32) if vif not in self.vifs[router]]
            if rows and not {"eth9", "pimreg"} & {device for device, _ in self.vifs[router].values()}:
                vif = pick.choice(free)
                self.vifs[router][vif] = pick.choice([["pimreg", 4], ["eth9", 0], ["none", 0]])
                rows[0][3][vif] = 1
        for router in pick.sample(self.routers, pick.randint(0, len(self.routers))):
            rows = [row for row in self.rows[router] if row[:2] == [group, source] and row[2] != "-1"]
            if rows:
                rows[0][3][pick.choice(list(self.vifs[router]))] = pick.choice(THRESHOLDS)

    def add_asked(self):
        """Rows of groups that hosts may ask for: of a source, of every source, and of every group."""
        for _ in range(self.pick.randint(1, 4)):
            router = self.pick.choice(self.routers)
            group, source = self.pick.choice(ASKED[:5]), self.pick.choice(ASKING[:5])
            if self.pick.random() < 0.3:
                group, source = self.pick.choice([group, group, group, "0.0.0.0"]), "0.0.0.0"
            if not any(row[:2] == [group, source] for row in self.rows[router]):
                incoming = str(self.pick.choice(list(self.vifs[router])))
                self.rows[router].append([group, source, incoming, self.some_pairs(router)])

    # ---- the files

    def address_word(self, router, address):
        data = struct.pack(">I", number_of(address))
        return (data if self.orders[router] == "big" else data[::-1]).hex().upper()

    def cache_of(self, router):
        text = CACHE_HEADER
        for group, source, incoming, pairs in self.rows[router]:
            outgoing = "".join(f" {number:2}:{threshold:<3}" for number, threshold in sorted(pairs.items()))
            text += (f"{self.address_word(router, group)} {self.address_word(router, source)} {incoming:<3}"
                     f" {7:8} {700:8} {0:8}{outgoing}\n")
        return text

    def vif_text_of(self, router):
        return VIF_HEADER + "".join(
            f"{number:2} {plain(device):<10} {1:8} {1:7}  {1:8} {1:7} {flags:05X} 00000000 00000000\n"
            for number, (device, flags) in self.vifs[router].items())

    def reports_of(self):
        pick = self.pick
        records = [(pick.choice([1, 2, 2]), group, pick.sample(SOURCES, pick.randint(0, 2)))
                   for group in GROUPS if pick.random() < 0.5]
        lines = [report_of(records)] if records else []
        if pick.random() < 0.4:
            lines += self.asked_of()
        return "".join(f"{line}\n" for line in lines)

    def asked_of(self):
        """Reports of groups that no flow lists, or of other sources, most of them few, and in several messages."""
        pick = self.pick
        groups = pick.choices(ASKED + GROUPS, k=pick.randint(1, 6))
        kind = pick.randrange(12)
        groups += [f"239.8.{number // 20}.{number % 20}" for number in range(pick.randint(18, 30))] if kind == 0 else []
        groups += pick.sample(SERVICES, pick.randint(6, len(SERVICES))) if kind == 1 else []
        records = [(pick.choice([1, 1, 2, 2, 7]), group, pick.sample(ASKING, pick.randint(0, 3))) for group in groups]
        half = len(records) // 2
        lines = [report_of(part) for part in (records[:half], records[half:])]
        return lines + [older_report_of(pick.choice([0x12, 0x16]), group) for group in pick.sample(ASKED, pick.choice([0, 0, 1]))]

    def topology_text(self):
        lines = ["version = 1", f"lans = {json.dumps(self.lans)}"]
        for router in self.routers:
            lines += ["[[router]]", f'name = "{router}"', f'order = "{self.orders[router]}"']
        for router in self.routers:
            for device, lan in self.interfaces[router].items():
                lines += ["[[interface]]", f'router = "{router}"', f'device = "{device}"', f'lan = "{lan}"']
        for source, lan in self.sources.items():
            lines += ["[[source]]", f'address = "{source}"', f'lan = "{lan}"']
        for source, group, ttl in self.flows:
            lines += ["[[flow]]", f'source = "{source}"', f'group = "{group}"', f"ttl = {ttl}"]
        return "\n".join(lines) + "\n"

    def write(self, folder):
        texts = {"topology": self.topology_text()}
        for router in self.routers:
            texts[f"vif-{router}"] = self.vif_text_of(router)
            texts[f"cache-{router}"] = self.cache_of(router)
        for lan in self.lans:
            texts[f"igmp-{lan}"] = self.reports_of()
        for name, text in texts.items():
            with open(os.path.join(folder, name), "w", encoding="utf-8") as file:
                file.write(text)


class ManyWants(Made):
    """A domain whose hosts ask for many sources that no flow has, again and again: some at once, others after all that
    are different. Each two are 131,071 apart, as many as the program remembers of them by their remainders, so that one
    takes the place of the other; and if there is to be a sort of them, they come more than 2^18 times in all."""
    APART = 131_071

    def __init__(self, seed, pairs, is_sorted):
        self.pairs, self.is_sorted = pairs, is_sorted
        super().__init__(seed)

    def reports_of(self):
        pick = self.pick
        first = pick.randrange(number_of("10.32.0.0"), number_of("10.64.0.0"))
        near = [dotted(first + number) for number in range(self.pairs)]
        far = [dotted(first + self.APART + number) for number in range(self.pairs)]
        both = [source for pair in zip(near, far) for source in pair]
        records = [(1, "239.9.9.9", sources) for sources in (near, near, far, near[::-1], SOURCES, ["0.0.0.0"])]
        records += [(2, group, []) for group in ASKED] * 3
        records += [(1, "0.0.0.0", both[:9]), (1, GROUPS[0], both), (1, "239.8.0.1", both)]
        in_each = max(1, 16_000 // len(both))  # a message has at most 16,376 sources
        lines = messages_of(records, in_each)
        if self.is_sorted:
            lines += messages_of([(1, "239.9.9.9", both)] * ((1 << 18) // len(both) + 1), in_each)
        lines += messages_of([(1, "239.9.9.9", near)] * 3, in_each)  # of which all but the first are remembered
        return "".join(f"{line}\n" for line in lines)
