"""Multicast traffic for the lab: members and a source.

Usage: traffic.py member ADDRESS SECONDS GROUP ...
           joins the groups on the interface of the address, and after so many seconds, or once it is
           ended by SIGTERM, prints for each how many packets came
       traffic.py source ADDRESS TTL COUNT GROUP ...
           sends so many packets to each group by the interface of the address
"""

import select
import signal
import socket
import sys
import time

PORT = 5004


def member(address, seconds, *groups):
    receivers = {}
    for group in groups:
        receiver = socket.socket(socket.AF_INET, socket.SOCK_DGRAM)
        receiver.setsockopt(socket.SOL_SOCKET, socket.SO_REUSEADDR, 1)
        receiver.bind((group, PORT))
        membership = socket.inet_aton(group) + socket.inet_aton(address)
        receiver.setsockopt(socket.IPPROTO_IP, socket.IP_ADD_MEMBERSHIP, membership)
        receivers[receiver] = group
    counts = dict.fromkeys(groups, 0)
    end = time.monotonic() + float(seconds)
    signal.signal(signal.SIGTERM, signal.default_int_handler)
    try:
        while (left := end - time.monotonic()) > 0:
            for receiver in select.select(list(receivers), [], [], left)[0]:
                receiver.recv(2048)
                counts[receivers[receiver]] += 1
    except KeyboardInterrupt:
        pass
    for group in groups:
        print(group, counts[group])


def source(address, ttl, count, *groups):
    sender = socket.socket(socket.AF_INET, socket.SOCK_DGRAM)
    sender.setsockopt(socket.IPPROTO_IP, socket.IP_MULTICAST_TTL, int(ttl))
    sender.setsockopt(socket.IPPROTO_IP, socket.IP_MULTICAST_IF, socket.inet_aton(address))
    sender.bind((address, 0))
    for _ in range(int(count)):
        for group in groups:
            sender.sendto(b"mcaudit", (group, PORT))
        time.sleep(0.1)


if __name__ == "__main__":
    {"member": member, "source": source}[sys.argv[1]](*sys.argv[2:])
