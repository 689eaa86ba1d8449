"""Captures: pcap and pcapng, decoded as their bytes come, and the frames of the links that they are of.

What is decoded is bounded: so many bytes and packets in all, and so many bytes a packet.
"""
import dataclasses
import struct

from mcaudit_tools.common import Failed

MOST_BYTES = 1 << 30
MOST_PACKETS = 10_000_000
MOST_PACKET = 262_144
MOST_BLOCK = 1 << 20
MOST_INTERFACES = 4096
ALL_HOSTS_MAC = bytes([1, 0, 0x5E, 0, 0, 1])
IPV4, TAGS = 0x0800, (0x8100, 0x88A8, 0x9100)
ETHERNET, RAW, COOKED, COOKED_2 = 1, (12, 14, 101, 228), 113, 276
HARDWARE_ETHERNET, HARDWARE_LOOPBACK = 1, 772  # of cooked frames (ARPHRD)
HARDWARE_LENGTH = b"\0\x06"  # of an address, as cooked frames have it
TO_ALL, OWN = 2, 4  # packet types of cooked frames: multicast, and sent by this machine
OF_ANY = "the capture is of all interfaces (any), and a list is of one LAN: capture on its interface"
SECOND = 1_000_000_000  # times are whole nanoseconds
MAGIC = {0xA1B2C3D4: 1000, 0xA1B23C4D: 1}  # nanoseconds of a unit of pcap's times
SECTION, INTERFACE, OLD_PACKET, SIMPLE_PACKET, STATISTICS, PACKET = 0x0A0D0D0A, 1, 2, 3, 5, 6  # blocks of pcapng


class Broken(Failed):
    """A capture that is none, is cut, or is of a kind that is not read."""


@dataclasses.dataclass
class Frame:
    """What a capture has of one packet: when it came, its bytes from the IP header on, and what its link says."""

    time: "int | None"
    data: bytes = b""
    is_to_all: "bool | None" = None  # to the MAC of 224.0.0.1; None where nothing shows it
    vlans: list = dataclasses.field(default_factory=list)  # the numbers of its tags
    interface: "int | None" = None  # of those that the capture has
    line: "int | None" = None  # of a text
    hardware: "bytes | None" = None  # the hardware address that sent it, where the link has them
    target: "bytes | None" = None  # that to which it was sent, where the capture has it


class Decoder:
    """Takes the bytes of a capture as they come, and gives its frames."""

    def __init__(self, interface=None):
        """Takes the number of the interface to look at, where the capture is of several."""
        self.interface = interface
        self.rest, self.bytes, self.packets = bytearray(), 0, 0
        self.read, self.order, self.unit, self.link = self.read_start, "<", 1, None
        self.interfaces, self.seen, self.dropped = [], set(), 0
        self.skipping = 0

    def feed(self, piece):
        """Takes a piece. Returns the frames that it ends."""
        self.bytes += len(piece)
        if self.bytes > MOST_BYTES:
            raise Broken(f"the capture has more than {MOST_BYTES} bytes")
        skipped = min(self.skipping, len(piece))
        self.skipping -= skipped
        self.rest += piece[skipped:]
        frames, at = [], 0
        while not self.skipping:
            taken, frame = self.read(memoryview(self.rest)[at:])
            if not taken:
                break
            at += taken
            if at > len(self.rest):
                self.skipping, at = at - len(self.rest), len(self.rest)
            if frame is not None:
                frames.append(self.counted(frame))
        del self.rest[:at]
        return frames

    def finish(self):
        """Sees that the capture ends with a whole packet."""
        if self.read == self.read_start or self.rest or self.skipping:
            raise Broken("the capture is cut short")

    def counted(self, frame):
        """Returns the frame, as long as there aren't too many, and all are of one interface."""
        self.packets += 1
        if self.packets > MOST_PACKETS:
            raise Broken(f"the capture has more than {MOST_PACKETS} packets")
        if self.interface is None and frame.interface is not None:
            self.seen.add(frame.interface)
            if len(self.seen) > 1:
                numbers = " and ".join(map(str, sorted(self.seen)))
                raise Broken(f"the capture is of several interfaces, {numbers} among them: name the LAN's one by "
                             "--interface")
        return frame

    # pcap

    def read_start(self, data):
        """Reads the header of the file."""
        if len(data) < 24:
            return 0, None
        for self.order in "<>":
            magic, = struct.unpack_from(self.order + "I", data)
            if magic in MAGIC:
                self.unit, self.read = MAGIC[magic], self.read_record
                major, minor, _, _, _, self.link = struct.unpack_from(self.order + "HHiIII", data, 4)
                self.link &= 0xFFFF
                if (major, minor) != (2, 4):
                    raise Broken("the capture is of a version of pcap that is not read")
                check_link(self.link)
                return 24, None
        if struct.unpack_from("<I", data)[0] == SECTION:
            self.read = self.read_block
            return self.read_block(data)
        raise Broken("it is not a capture: neither pcap nor pcapng")

    def read_record(self, data):
        """Reads a packet of pcap."""
        if len(data) < 16:
            return 0, None
        seconds, parts, captured, _ = struct.unpack_from(self.order + "IIII", data)
        if captured > MOST_PACKET or parts * self.unit >= SECOND:
            raise Broken("the capture is broken: no packet is such")
        if len(data) < 16 + captured:
            return 0, None
        return 16 + captured, frame_of(self.link, seconds * SECOND + parts * self.unit, bytes(data[16:16 + captured]))

    # pcapng

    def read_block(self, data):
        """Reads a block of pcapng. What is no packet's may be long, and is passed over."""
        if len(data) < 12:
            return 0, None
        kind, = struct.unpack_from(self.order + "I", data)
        if kind == SECTION:
            self.order = ">" if bytes(data[8:12]) == b"\x1a\x2b\x3c\x4d" else "<"
            self.interfaces = []
        length, = struct.unpack_from(self.order + "I", data, 4)
        if length < 12 or length % 4:
            raise Broken("the capture is broken: no block is so long")
        read = {INTERFACE: self.read_interface, PACKET: self.read_packet, OLD_PACKET: self.read_old_packet,
                SIMPLE_PACKET: self.read_simple_packet, STATISTICS: self.read_statistics}.get(kind)
        if read is None:
            return length, None
        if length > MOST_BLOCK:
            raise Broken(f"the capture has a block of more than {MOST_BLOCK} bytes")
        if len(data) < length:
            return 0, None
        try:
            return length, read(bytes(data[8:length - 4]))
        except (struct.error, IndexError) as fault:
            raise Broken("the capture is broken: a block is too short") from fault

    def options(self, body):
        """Yields each option of a block."""
        while len(body) >= 4:
            code, length = struct.unpack_from(self.order + "HH", body)
            if code == 0:
                return
            yield code, body[4:4 + length]
            body = body[4 + (length + 3) // 4 * 4:]

    def read_interface(self, body):
        """Reads what the packets of an interface are."""
        link, = struct.unpack_from(self.order + "H", body)
        units, offset, name = (10, 6), 0, b""
        for code, value in self.options(body[8:]):
            if code == 2:
                name = value.rstrip(b"\0")
            elif code == 9:
                units = (2 if value[0] & 128 else 10), value[0] & 127
            elif code == 14:
                offset, = struct.unpack(self.order + "q", value)
        if len(self.interfaces) >= MOST_INTERFACES:
            raise Broken(f"the capture has more than {MOST_INTERFACES} interfaces")
        self.interfaces.append((link, units[0] ** units[1], offset, link == COOKED and name == b"any"))

    def read_packet(self, body):
        """Reads a packet."""
        number, high, low, captured, _ = struct.unpack_from(self.order + "IIIII", body)
        return self.packet(number, high << 32 | low, body[20:20 + captured], captured)

    def read_old_packet(self, body):
        """Reads a packet as pcapng had it first."""
        number, dropped, high, low, captured, _ = struct.unpack_from(self.order + "HHIIII", body)
        self.dropped += dropped if dropped != 0xFFFF else 0
        return self.packet(number, high << 32 | low, body[20:20 + captured], captured)

    def read_simple_packet(self, body):
        """Reads a packet that has no time."""
        captured = min(struct.unpack_from(self.order + "I", body)[0], len(body) - 4)
        return self.packet(0, None, body[4:4 + captured], captured)

    def read_statistics(self, body):
        """Reads how many packets were dropped."""
        for code, value in self.options(body[12:]):
            if code in (5, 7):  # by the interface, by the system
                self.dropped += int.from_bytes(value, "little" if self.order == "<" else "big")

    def packet(self, number, units, data, captured):
        """Returns the frame of an interface's packet."""
        if number >= len(self.interfaces) or len(data) < captured:
            raise Broken("the capture is broken: no packet is such")
        link, per_second, offset, is_of_any = self.interfaces[number]
        check_link(link)
        if is_of_any and self.interface in (None, number):
            raise Broken(OF_ANY)
        time = None if units is None else units * SECOND // per_second + offset * SECOND
        frame = frame_of(link, time, data)
        if frame is not None and link != COOKED_2:
            frame.interface = number
        return frame


def check_link(link):
    """Fails where frames of the link type can't be read."""
    if link not in (ETHERNET, COOKED, COOKED_2, *RAW):
        raise Broken(f"the capture is of the link type {link}: only Ethernet, IP and Linux cooked ones are read")


def frame_of(link, time, data):
    """Returns the frame of these bytes: without its packet, where that is none of IPv4."""
    if link in RAW:
        return Frame(time, data if data[:1] and data[0] >> 4 == 4 else b"")
    if link == ETHERNET:
        return untagged(Frame(time, is_to_all=data[:6] == ALL_HOSTS_MAC, hardware=data[6:12] or None,
                              target=data[:6]), data[12:])
    if link == COOKED:
        kind, hardware = struct.unpack_from("!HH", data.ljust(4, b"\xff"))
        if hardware in (HARDWARE_ETHERNET, HARDWARE_LOOPBACK):
            raise Broken(OF_ANY)
        return untagged(Frame(time, is_to_all=kind in (TO_ALL, OWN), hardware=cooked_address(data[4:14])), data[14:])
    index, kind = struct.unpack_from("!I2xB", data.ljust(11, b"\xff"), 4)
    return untagged(Frame(time, is_to_all=kind in (TO_ALL, OWN), interface=index, hardware=cooked_address(
        b"\0" + data[11:20])), data[:2] + data[20:])


def cooked_address(data):
    """Returns the address of the sender's hardware, of its length and of what has room for it; None where it is no
    such one."""
    return data[2:8] if data[:2] == HARDWARE_LENGTH and len(data) == 10 else None


def untagged(frame, data):
    """Gives the frame its tags and its packet, of what begins with the type of what follows."""
    while int.from_bytes(data[:2], "big") in TAGS and len(data) >= 4:
        frame.vlans.append(int.from_bytes(data[2:4], "big") & 0xFFF)
        data = data[4:]
    if int.from_bytes(data[:2], "big") == IPV4:
        frame.data = data[2:]
    return frame
