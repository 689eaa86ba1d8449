"""FRR on the routers of a lab: zebra and pimd, which have the interfaces eth0 and eth1."""
import os
import time

from premises import run

PIM = """hostname {router}
interface eth0
 ip pim
{igmp0}exit
interface eth1
 ip pim
{igmp1}exit
ip pim rp {rendezvous} 224.0.0.0/4
"""
IGMP = " ip igmp\n ip igmp query-interval 10\n ip igmp query-max-response-time 30\n"


def folder_of(lab, router):
    """Returns the folder that has a router's files of FRR, and its sockets."""
    return f"{lab.folder}/{router}-frr"


def start(lab, router, rendezvous, igmp0, igmp1):
    """Starts both daemons on a router of the lab, with this rendezvous point, and with these lines of IGMP for its
    interfaces."""
    folder = folder_of(lab, router)
    os.makedirs(folder, exist_ok=True)
    pim = PIM.format(router=router, rendezvous=rendezvous, igmp0=igmp0, igmp1=igmp1)
    for daemon, text in (("zebra", f"hostname {router}\n"), ("pimd", pim)):
        with open(f"{folder}/{daemon}.conf", "w", encoding="ascii") as file:
            file.write(text)
    run(f"chmod 711 {lab.folder}; chown -R frr: {folder}")
    lab.at(router, "sysctl -qw net.ipv4.ip_forward=1")
    for daemon in ("zebra", "pimd"):
        lab.begin(f"{router}-{daemon}", router, [
            f"/usr/lib/frr/{daemon}", "-N", f"{lab.name}-{router}", "-f", f"{folder}/{daemon}.conf", "-i",
            f"{folder}/{daemon}.pid", "-z", f"{folder}/zserv", "--vty_socket", folder])
        time.sleep(1)
