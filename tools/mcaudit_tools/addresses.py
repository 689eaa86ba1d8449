"""The addresses that a router says its devices have: of `ip`, in either form, or of its routes."""
import contextlib
import ipaddress
import json
import re
import typing

ADDRESS_LINE = re.compile(r"^\d+: +(\S+) +inet ([0-9.]+)(?: peer ([0-9.]+))?/(\d+) ", re.MULTILINE)


class Link(typing.NamedTuple):
    """A link by its two ends, the lower address first."""
    low: ipaddress.IPv4Address
    high: ipaddress.IPv4Address

    def __str__(self):
        """Returns it for people."""
        return f"{self.low} to {self.high}"


class Address(typing.NamedTuple):
    """An address of a device: its network, or on a link both ends, or neither (a lone address)."""
    local: "ipaddress.IPv4Address | None"
    network: "ipaddress.IPv4Network | Link | None"


def address_word(word, order):
    """Returns the address that the kernel prints as a number of its machine, or None."""
    if not re.fullmatch(rb"[0-9A-Fa-f]{8}", word):
        return None
    return ipaddress.IPv4Address(int(word, 16).to_bytes(4, order))


def told_address(local, peer, prefix):
    """Returns what a device's address says, or None if it is none."""
    try:
        own, other = (ipaddress.IPv4Interface(f"{it}/{prefix}") for it in (local, peer or local))
    except ValueError:
        return None
    if own.ip.is_loopback or not isinstance(prefix, int):
        return None
    if own.ip != other.ip:
        return Address(own.ip, Link(*sorted((own.ip, other.ip))))
    return Address(own.ip, own.network if prefix < 32 else None)


def told_addresses(text):
    """Returns devices and addresses of `ip -j address`, or of `ip -o -4 address`."""
    if not text.startswith("["):
        return [(device, told_address(local, peer, int(prefix[:3])))
                for device, local, peer, prefix in ADDRESS_LINE.findall(text)]
    return link_addresses(json.loads(text))


def link_addresses(links):
    """Returns devices and addresses of the value that `ip -j address` prints."""
    return [(link["ifname"], told_address(it.get("local"), it.get("address"), it.get("prefixlen")))
            for link in links for it in link.get("addr_info", []) if it.get("family") == "inet"]


def told_networks(text, order):
    """Yields devices and the networks that they are in, of /proc/net/route: no gateway, and no host's route."""
    for words in map(str.split, text.split("\n")[1:]):
        with contextlib.suppress(ValueError, IndexError):  # it is no line of routes
            network, mask = (address_word(words[it].encode(), order) for it in (1, 7))
            if words[2] == "00000000" and words[3][-1] in "19":
                yield words[0], Address(None, ipaddress.IPv4Network((network, str(mask))))
