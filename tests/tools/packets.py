"""Packets and captures for the cases: IGMP messages (RFC 3376), IPv4, frames, and pcap and pcapng files of them."""
import struct

START = 1700000000.0
ALL_HOSTS, ROUTERS = "224.0.0.1", "224.0.0.22"
ALERT = b"\x94\x04\0\0"


def checksum(data):
    """Returns the Internet checksum."""
    padded = data + b"\0" * (len(data) % 2)
    total = sum(struct.unpack(f"!{len(padded) // 2}H", padded))
    while total >> 16:
        total = (total & 0xFFFF) + (total >> 16)
    return 0xFFFF - total


def address(text):
    """Returns a dotted address as bytes."""
    return bytes(map(int, text.split(".")))


def summed(message):
    """Returns an IGMP message with its checksum."""
    return message[:2] + struct.pack("!H", checksum(message[:2] + b"\0\0" + message[4:])) + message[4:]


def query(tenths=100, version=3):
    """Returns a General Query."""
    return summed(bytes([0x11, tenths]) + bytes(6) + (b"\x02\x7d\0\0" if version == 3 else b""))


def record(kind, group, *sources):
    """Returns a group record."""
    return struct.pack("!BBH", kind, 0, len(sources)) + address(group) + b"".join(map(address, sources))


def report(*records, count=None):
    """Returns a version 3 report."""
    return summed(struct.pack("!BBHHH", 0x22, 0, 0, 0, len(records) if count is None else count) + b"".join(records))


def wants(group):
    """Returns the report of a host that wants all of a group."""
    return report(record(2, group))


def packet(sender, target, message, ttl=1, protocol=2, fragment=0):
    """Returns an IPv4 packet."""
    head = struct.pack("!BBHHHBBH", 0x46, 0xC0, 24 + len(message), 0, fragment, ttl, protocol, 0)
    head += address(sender) + address(target) + ALERT
    return head[:10] + struct.pack("!H", checksum(head)) + head[12:] + message


def with_a_bad_header(packet):
    """Returns the packet with a wrong checksum of its header."""
    return packet[:10] + bytes([packet[10] ^ 255]) + packet[11:]


def asked(sender="10.0.1.1", tenths=100, target=ALL_HOSTS, **how):
    """Returns the packet of a General Query."""
    return packet(sender, target, query(tenths), **how)


def wanted(sender, group):
    """Returns the packet of a host's report."""
    return packet(sender, ROUTERS, wants(group))


def later():
    """Returns a packet of another kind, which shows that the capture went on."""
    return packet("10.0.1.9", "224.0.0.5", b"x" * 20, protocol=89)


def hardware(number):
    """Returns the hardware address of a host by its number."""
    return bytes([2, 0, 0, 0, 0, number])


def frame(data, mac=None, vlan=None, sender=1):
    """Returns a packet in an Ethernet frame of the host of this number, to its group's MAC."""
    mac = bytes([1, 0, 0x5E, data[17] & 127]) + data[18:20] if mac is None else mac
    tag = b"" if vlan is None else struct.pack("!HH", 0x8100, vlan)
    return mac + hardware(sender) + tag + b"\x08\0" + data


def cooked(data, kind=2, hardware=1):
    """Returns a packet in a frame of Linux's first cooked kind."""
    return struct.pack("!HHH8sH", kind, hardware, 6, b"\2\0\0\0\0\1\0\0", 0x800) + data


def cooked_2(data, index, kind=2, sender=b"\2\0\0\0\0\1"):
    """Returns a packet in a frame of Linux's second cooked kind."""
    return struct.pack("!HHIHBB8s", 0x800, 0, index, 1, kind, 6, sender) + data


def pcap(frames, link=1, order="<"):
    """Returns a pcap file of (seconds after the start, frame)."""
    head = struct.pack(order + "IHHiIII", 0xA1B2C3D4, 2, 4, 0, 0, 262144, link)
    return head + b"".join(
        struct.pack(order + "IIII", int(START + at), int((START + at) % 1 * 1e6), len(it), len(it)) + it
        for at, it in frames)


def block(kind, body):
    """Returns a block of pcapng."""
    body += b"\0" * (-len(body) % 4)
    return struct.pack("<II", kind, len(body) + 12) + body + struct.pack("<I", len(body) + 12)


def pcapng(frames, link=1, names=(b"",), number=0):
    """Returns a pcapng file of (seconds after the start, frame), of interfaces with these names: of the one with this
    number."""
    parts = [block(0x0A0D0D0A, struct.pack("<IHHq", 0x1A2B3C4D, 1, 0, -1))]
    for name in names:
        option = struct.pack("<HH", 2, len(name)) + name + b"\0" * (-len(name) % 4) + bytes(4)
        parts.append(block(1, struct.pack("<HHI", link, 0, 0) + option * bool(name)))
    for at, it in frames:
        units = int((START + at) * 1e6)
        parts.append(block(6, struct.pack("<IIIII", number, units >> 32, units & 0xFFFFFFFF, len(it), len(it)) + it))
    return b"".join(parts)


def text(packets, frames=()):
    """Returns what `tcpdump -n -tt -x` prints of (seconds after the start, packet), or with -e of frames."""
    lines = []
    for at, it in [*packets, *frames]:
        if frames:
            ends = ":".join(f"{it:02x}" for it in it[6:12]), ":".join(f"{it:02x}" for it in it[:6])
            it = it[14:]
            lines.append(f"{START + at:.6f} {ends[0]} > {ends[1]}, ethertype IPv4 (0x0800), length 60: x > y: igmp")
        else:
            lines.append(f"{START + at:.6f} IP x > y: igmp")
        for first in range(0, len(it), 16):
            digits = it[first:first + 16].hex()
            lines.append(f"\t0x{first:04x}:  " + " ".join(digits[it:it + 4] for it in range(0, len(digits), 4)))
    return "\n".join(lines).encode() + b"\n"
