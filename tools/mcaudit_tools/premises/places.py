"""Where packets are lost between two routers, by what each counts on the way."""
VIF = "the packets' TTL, the MTU, or the device is down"


def place_of(windows, sender, receiver, expected, came):
    """Returns where packets are lost that a router took in and the next one didn't, or nothing where that isn't known.
    Sender and receiver are routers with their vifs."""
    feeder, router = sender[0], receiver[0]
    out, into = windows.domain.devices.get(sender), windows.domain.devices.get(receiver)

    def rose(name, kind="numbers", key=None, at=router):
        """Returns how a number rose in all, or None."""
        rise = windows.rise(at, kind, key, name) if key is not None else windows.rise(at, kind, name)
        return rise.outer if rise else None

    def is_less(number):
        """Whether a number that is known is less than expected."""
        return number is not None and number < 0.99 * expected

    left = rose("packets_out", "vifs", sender[1], feeder)
    if is_less(left):
        large = rose("IpFragFails", at=feeder)
        return f"{feeder} did not send them by {out} (its vif: {left}; too large for it: {large}): " + VIF
    sent = rose("sent", "devices", out, feeder)
    if is_less(sent):
        return place_in_sending(feeder, out, sent, rose, is_less)
    got = rose("got", "devices", into)
    if is_less(got):
        dropped = rose("got_dropped", "devices", into)
        return (f"{feeder} sent them, and {router} {into} got {got} (dropped {dropped}): the link, a switch that "
                f"snoops and doesn't take {router}'s port for a router's, or {into}'s MTU")
    reverse = rose("TcpExtIPReversePathFilter")
    if reverse is not None and reverse >= 0.9 * (expected - came):
        return f"{router} drops them by rp_filter ({reverse})"
    received = rose("IpInReceives")
    if is_less(received):
        return (f"{router} {into} got them and its IP {received}: tc, XDP, an ingress chain of nft, or {into} is a "
                "port of a bridge")
    multicast = rose("IpExtInMcastPkts")
    if is_less(multicast):
        return (f"{router} drops them before it routes ({multicast} are left): netfilter PREROUTING, or the source's "
                f"address is one of {router}'s own")
    return f"{router} takes them in, and not by this table: ip mrule, VRF" if multicast is not None else ""


def place_in_sending(feeder, out, sent, rose, is_less):
    """Returns where copies are lost that a vif made and its device didn't send."""
    is_forwarded = not any(is_less(rose(it, at=feeder)) for it in ("IpForwDatagrams", "IpExtOutMcastPkts"))
    dropped = rose("sent_dropped", "devices", out, feeder)
    return (f"{feeder} made the copies, and {out} sent {sent} (dropped {dropped}): "
            + ("its link or queue" if is_forwarded else "netfilter, FORWARD or POSTROUTING"))
