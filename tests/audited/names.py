"""How addresses, devices and lists of names are written in an answer."""
import struct

SHOWN_NAMES = 8


def dotted(address):
    return ".".join(map(str, struct.pack(">I", address)))


def address_of(text):
    return struct.unpack(">I", bytes(map(int, text.split("."))))[0]


def escaped(device):
    return "".join(chr(b) if 0x21 <= b <= 0x7E and b != 0x5C else f"\\x{b:02x}" for b in device)


def some(names, between=" "):
    """A list of names as it is shown."""
    rest = len(names) - SHOWN_NAMES
    return between.join(names[:SHOWN_NAMES]) + (f" and {rest} more" if rest > 0 else "")
