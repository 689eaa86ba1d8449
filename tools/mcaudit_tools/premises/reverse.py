"""The reverse path filter: whether a router takes in what comes from a source by a device, as the kernel decides it
(fib_validate_source of net/ipv4/fib_frontend.c)."""
import shlex

from mcaudit_tools.premises.findings import DROPS, MAY_DROP, NOT_KNOWN
from mcaudit_tools.premises.routes import WITHOUT_IPROUTE2


def route_text(route, source):
    """Returns what the route back to the source is, in words."""
    if route.kind == "unicast":
        return f"the route back to {source} is by {' and '.join(sorted(set(route.devices)))}"
    return f"there is no route back to {source}" + ("" if route.kind == "none" else f" ({route.kind})")


def setting_line(device, name, value):
    """Returns the line that sets a number of a device. A point of its name is a slash for sysctl."""
    return "sysctl -w " + shlex.quote(f"net.ipv4.conf.{device.replace('.', '/')}.{name}={value}")


def remedy_of(facts, device, route, source, gateway, is_addressed):
    """Returns the line that has packets of the source taken in."""
    if route.kind == "unicast" and is_addressed:
        return setting_line(device, "rp_filter", 2)  # the greater of both counts, and 2 is the loose one
    if gateway and is_addressed:
        return f"ip route replace {source}/32 via {gateway} dev {shlex.quote(device)}"
    lines = [setting_line(it, "rp_filter", 0) for it in (device, "all") if facts.setting(it, "rp_filter")]
    return " && ".join(lines)


def judge_local(facts, source, device, filtering):
    """Yields what becomes of packets from an address of the router's own."""
    accepting = [facts.setting(it, "accept_local") for it in (device, "all")]
    if accepting == [0, 0]:
        yield DROPS, f"{source} is one of its own addresses", setting_line(device, "accept_local", 1)
    elif filtering == 1 or None in accepting:
        yield MAY_DROP, f"{source} is one of its own addresses, and rp_filter of {device} is {filtering}", ""


def doubt_of(facts, device, route):
    """Returns what else may decide which route the kernel looks up, or nothing."""
    if any(facts.setting(it, "src_valid_mark") != 0 for it in (device, "all")):
        return "the packet's mark may decide (src_valid_mark)"
    if facts.link(device, "master") and not facts.link(device, "brport"):
        return f"{device} belongs to {facts.link(device, 'master')}, which may have a table of its own"
    return f"a rule may decide: {facts.odd_rule}" if facts.odd_rule else route.doubt


def judge_reverse(facts, source, device, gateway):
    """Yields what the filter does with packets of the source that come in by the device: a word, a text and a remedy.
    The gateway is what returns the address of the router from which they come, or None."""
    one, every = (facts.setting(it, "rp_filter") for it in (device, "all"))
    if one is None or every is None:
        yield NOT_KNOWN, f"rp_filter of {device}", ""
        return
    filtering, route = max(one, every), facts.route_back(source)
    if route is None:
        yield NOT_KNOWN, f"rp_filter of {device} is {filtering}, and the route back to {source} isn't known", ""
        return
    if route.doubt and facts.addresses is None:
        yield NOT_KNOWN, f"whether {source} is one of its own addresses", ""
    if route.kind == "local":
        yield from judge_local(facts, source, device, filtering)
    elif filtering:
        yield from judge_filter(facts, source, device, (filtering, every, one), gateway, route)


def judge_filter(facts, source, device, settings, gateway, route):
    """Yields what the filter does where it is on, by its settings: that which counts, that of all, and the device's."""
    filtering, every, one = settings
    addresses = None if facts.addresses is None else facts.addresses.get(device, [])
    doubt = doubt_of(facts, device, route)
    name = f"rp_filter {filtering} (all {every}, {device} {one})"
    is_taken = route.kind == "unicast" and (device in route.devices or filtering != 1 and addresses != [])
    if is_taken and device not in route.devices and addresses is None:
        yield NOT_KNOWN, f"rp_filter of {device} is {filtering}, and its addresses aren't known", ""
    elif is_taken and doubt not in ("", WITHOUT_IPROUTE2):
        yield NOT_KNOWN, f"{name}, and {route_text(route, source)}; {doubt}", ""
    elif not is_taken:
        name += f", {device} has no IPv4 address" if addresses == [] else ""
        text = f"{name}, and {route_text(route, source)}" + (f"; {doubt}" if doubt else "")
        remedy = remedy_of(facts, device, route, source, gateway(), addresses != [])
        yield MAY_DROP if doubt else DROPS, text, remedy
