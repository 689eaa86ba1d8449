"""IGMP messages (RFC 1112, 2236, 3376) and the IPv4 packets that carry them."""
import dataclasses
import ipaddress
import re
import struct
import typing

QUERY, LEAVE = 0x11, 0x17
REPORT_1, REPORT_2, REPORT_3 = 0x12, 0x16, 0x22
REPORTS = REPORT_1, REPORT_2, REPORT_3
IGMP = 2  # the protocol in IPv4
ALL_HOSTS = bytes([224, 0, 0, 1])
FIRST_FORWARDED = bytes([224, 0, 1, 0])  # groups below are never forwarded (RFC 5771, section 4)
BEHIND_GROUPS = bytes([240, 0, 0, 0])  # the first address that is not a group's any more
SSM = 232  # the first number of the source-specific groups (RFC 4607)
INCLUDE, EXCLUDE = 1, 2  # the record types MODE_IS_INCLUDE and MODE_IS_EXCLUDE
CURRENT, CHANGES = (1, 2), (3, 4, 5, 6)  # record types (RFC 3376, section 4.2.12)
LEAST_MESSAGE = 8
TO_INCLUDE, TO_EXCLUDE, ALLOW, BLOCK = CHANGES
DOTTED = re.compile(r"(?:0|[1-9][0-9]{0,2})(?:\.(?:0|[1-9][0-9]{0,2})){3}")


def dotted(address):
    """Returns an address of four bytes as text."""
    return str(ipaddress.IPv4Address(address))


def address_of(text):
    """Returns the address of four bytes that a text is, or None."""
    try:
        return ipaddress.IPv4Address(text).packed if DOTTED.fullmatch(text) else None
    except ValueError:
        return None


def is_host(address):
    """Whether an address may be a host's."""
    return 0 < address[0] < 224 and address[0] != 127


def is_forwarded(group):
    """Whether an address is a group's that routers forward."""
    return FIRST_FORWARDED <= group < BEHIND_GROUPS


def host_of(text):
    """Returns the address of a host that a text is, or None."""
    found = address_of(text)
    return found if found and is_host(found) else None


def group_of(text):
    """Returns the address of a group that routers forward which a text is, or None."""
    found = address_of(text)
    return found if found and is_forwarded(found) else None


def sum_of(data):
    """Returns the Internet checksum of the bytes with a sum in them: 0 where that is right."""
    padded = data + b"\0" * (len(data) % 2)
    total = sum(struct.unpack(f"!{len(padded) // 2}H", padded))
    while total >> 16:
        total = (total & 0xFFFF) + (total >> 16)
    return 0xFFFF - total


def is_whole(message):
    """Whether receivers heed the message: it is long enough, and has a right checksum."""
    return len(message) >= LEAST_MESSAGE and any(message) and sum_of(message) == 0


@dataclasses.dataclass
class Header:
    """The header of an IPv4 packet."""

    sender: bytes
    target: bytes
    ttl: int
    protocol: int
    length: int  # of the header, in bytes
    total: int  # of the packet
    is_fragment: bool
    is_dropped: bool  # by all who receive it, since its checksum is wrong


def header_of(data):
    """Reads the header of an IPv4 packet; None where it is none."""
    if len(data) < 20:
        return None
    length, total = (data[0] & 15) * 4, int.from_bytes(data[2:4], "big")
    if data[0] >> 4 != 4 or length < 20 or total < length:
        return None
    is_dropped = len(data) >= length and sum_of(data[:length]) != 0
    is_fragment = int.from_bytes(data[6:8], "big") & 0x3FFF != 0
    return Header(data[12:16], data[16:20], data[8], data[9], length, total, is_fragment, is_dropped)


@dataclasses.dataclass
class Packet:
    """An IPv4 packet with IGMP in it, or what of it the capture has."""

    sender: bytes
    target: bytes
    ttl: int
    message: bytes
    fault: "str | None" = None  # why the message isn't whole


def packet_of(data):
    """Reads an IPv4 packet; None where it is none of IGMP. One that its receivers drop has an empty message."""
    if len(data) < 20:
        fault = f"a packet was cut to {len(data)} bytes"
        return Packet(bytes(4), bytes(4), 0, b"", fault) if data[:1] >= b"\x40" else None
    header = header_of(data)
    if header is None or header.protocol != IGMP:
        return None
    fault, message = None, data[header.length:header.total]
    if header.is_dropped:
        message = b""
    elif header.is_fragment:
        fault = f"a fragment of {dotted(header.sender)}, which is not put together"
    elif len(data) < header.total:
        fault = f"a packet of {dotted(header.sender)} was cut to {len(data)} of {header.total} bytes"
    return Packet(header.sender, header.target, header.ttl, message, fault)


def is_general_query(message):
    """Whether a whole message asks for all groups (RFC 3376, sections 4.1.9 and 7.1)."""
    if message[0] != QUERY or message[4:8] != bytes(4):
        return False
    return len(message) == 8 or len(message) >= 12 and message[10:12] == bytes(2)


def tenths_to_answer(query):
    """Returns how many tenths of a second the answers to a query may take (RFC 3376, sections 4.1.1 and 7.2.1)."""
    code = query[1]
    if len(query) == 8:
        return code or 100
    return code if code < 128 else (code & 15 | 16) << ((code >> 4 & 7) + 3)


def mac_of(group):
    """Returns the MAC to which a group's packets are sent (RFC 1112, section 6.4)."""
    return bytes([1, 0, 0x5E, group[1] & 127]) + group[2:]


def group_asked(query):
    """Returns the group that a whole query asks for, with or without sources; None where that is none."""
    return query[4:8] if query[0] == QUERY and 224 <= query[4] < 240 else None


def is_without_sources(query):
    """Whether a whole query asks for no sources."""
    return len(query) < 12 or query[10:12] == bytes(2)


class Record(typing.NamedTuple):
    """A group record of a report."""

    kind: int
    group: bytes
    sources: bytes = b""  # four of each

    def addresses(self):
        """Returns its sources."""
        return [self.sources[at:at + 4] for at in range(0, len(self.sources), 4)]


def records_of(report):
    """Returns the records of a version 3 report, and the number of the first that doesn't end within it, or None."""
    found, at = [], 8
    for number in range(1, int.from_bytes(report[6:8], "big") + 1):
        if at + 8 > len(report):
            return found, number
        sources_end = at + 8 + 4 * int.from_bytes(report[at + 2:at + 4], "big")
        end = sources_end + 4 * report[at + 1]
        if end > len(report):
            return found, number
        found.append(Record(report[at], report[at + 4:at + 8], report[at + 8:sources_end]))
        at = end
    return found, None


def all_records(message):
    """Returns the records of a message of any version, of which a report of version 1 or 2 has one (RFC 3376, section
    7.3.2); none, where it is no report."""
    if message[0] in (REPORT_1, REPORT_2):
        return [Record(EXCLUDE, message[4:8])]
    return records_of(message)[0] if message[0] == REPORT_3 else []


def groups_of(report):
    """Yields each group of a report, and whether all its sources are asked for."""
    for record in all_records(report):
        yield record.group, record.kind == EXCLUDE


def is_of_current_state(report):
    """Whether a report may be one of a current state, which is an answer to a query."""
    return report[0] != REPORT_3 or any(it.kind in CURRENT for it in records_of(report)[0])


def summed(kind, rest):
    """Returns a message of this type, with the checksum of all of it."""
    head = bytes([kind, 0])
    return head + sum_of(head + bytes(2) + rest).to_bytes(2, "big") + rest


def state_report(mode, group, sources=()):
    """Returns the report of a host of version 3 whose current state of a group this is."""
    return message_of([Record(mode, group, b"".join(sources))])


def report_of(group, source=None):
    """Returns the report of a host of version 3 that wants a group, of all sources or of one."""
    return state_report(EXCLUDE, group) if source is None else state_report(INCLUDE, group, [source])


def message_of(records):
    """Returns the report of version 3 that has these records."""
    bodies = (bytes([it.kind, 0]) + (len(it.sources) // 4).to_bytes(2, "big") + it.group + it.sources for it in records)
    return summed(REPORT_3, bytes(2) + len(records).to_bytes(2, "big") + b"".join(bodies))
