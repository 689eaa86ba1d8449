#!/bin/sh
# From routers to a verdict, on a network of this machine's kernel: two routers with smcroute, three
# LANs and two hosts, in network namespaces. mcaudit-site makes the whole folder: the topology is drafted
# of what the routers say, with the times to live of packets that come; the tables are collected, and the
# hosts asked, since no router of this network asks them; mcaudit judges the folder, and its certificate
# is kept. Then one router gets one entry too many, and mcaudit has to find the second copy that a host
# sees come, to say that the tables aren't those of the certificate any more, and to name an entry that ends it
# once it is taken out, as the host sees.
#
# The switch of l2 snoops: what it shows of the reports, it shows to the port of the router that asked.
# Usage: run.sh PROGRAM
#
#   source 10.77.0.5 -- l0 -- r1 -- l1 -- r2 -- l2 -- member 10.77.2.7
#                              \________________/
#
# The flow of 239.1.2.3 goes from r1 over l1 and r2 to l2. That of 239.1.2.4 is sent by r1 onto l1 and
# onto l2, and r2 has no entry for it: the one that it gets in the end makes the second copy.

set -u
routers='r1 r2'
members='member=10.77.2.7'
sender=10.77.0.5
ttl=4
groups='239.1.2.3 239.1.2.4'
# shellcheck source=SCRIPTDIR/network.sh
. "$(dirname "$0")/network.sh"

build_network() {
    make_places
    make_lan l0 0
    make_lan l1 0
    make_lan l2 1
    join source eth0 l0 10.77.0.5
    join r1 eth0 l0 10.77.0.1
    join r1 eth1 l1 10.77.1.1
    join r1 eth2 l2 10.77.2.1
    join r2 eth0 l1 10.77.1.2
    join r2 eth1 l2 10.77.2.2
    join member eth0 l2 10.77.2.7
    ip -n "$lab-r2" route add 10.77.0.0/24 via 10.77.1.1
    ip -n "$lab-member" route add 10.77.0.0/24 via 10.77.2.2
}

start_routers() {
    start_router r1 3 <<'END'
phyint eth0 enable
phyint eth1 enable
phyint eth2 enable
mroute from eth0 source 10.77.0.5 group 239.1.2.3 to eth1
mroute from eth0 source 10.77.0.5 group 239.1.2.4 to eth1 eth2
END
    start_router r2 2 <<'END'
phyint eth0 enable
phyint eth1 enable
mroute from eth0 source 10.77.0.5 group 239.1.2.3 to eth1
END
}

# What the topology has beside its comments.
print_topology() {
    sed -e '/^#/d' -e 's/, # .*/,/' "$site/topology"
}

# The ports behind which the switch of l2 knows of a router.
print_router_ports() {
    bridge -n "$lab-lans" -d mdb show dev l2 | sed -n 's/^ *router ports on l2: *\(.*[^ ]\) *$/\1/p'
}

make_certificate() {
    "$mcaudit" pack "$site" > "$scratch/bundle" && "$mcaudit" make < "$scratch/bundle"
}

check_certificate() {
    "$mcaudit" pack "$site" --certificate > "$scratch/bundle" && "$mcaudit" check < "$scratch/bundle"
}

build_network
start_routers
ip netns exec "$lab-member" python3 "$here/traffic.py" member 10.77.2.7 600 239.1.2.3 239.1.2.4 \
    > /dev/null &
started="$started $!"

echo '- Nobody asks on l2, so there is no list of it.'
expect 1 at r2 "$tools/mcaudit-reports" --empty --wait 2 eth1 < /dev/null
echo '- The whole folder in one go, of routers and hosts that nobody has asked before.'
expect 0 print_router_ports < /dev/null
while_sending on_routers mcaudit-site init --ask-routers --empty --wait 5 --listen 0 > "$scratch/init" 2> "$scratch/said" ||
    fail "init: $(cat "$scratch/init" "$scratch/said")"
cat "$scratch/init"
expect 0 print_topology <<'END'
version = 1
lans = [
"10.77.0.0-24",
"10.77.1.0-24",
"10.77.2.0-24",
]
router = [
{name = "r1"},
{name = "r2"},
]
interface = [
{router = "r1", device = "eth0", lan = "10.77.0.0-24"},
{router = "r1", device = "eth1", lan = "10.77.1.0-24"},
{router = "r1", device = "eth2", lan = "10.77.2.0-24"},
{router = "r2", device = "eth0", lan = "10.77.1.0-24"},
{router = "r2", device = "eth1", lan = "10.77.2.0-24"},
]
source = [
{address = "10.77.0.5", lan = "10.77.0.0-24"},
]
flow = [
{source = "10.77.0.5", group = "239.1.2.3", ttl = 4},
{source = "10.77.0.5", group = "239.1.2.4", ttl = 4},
]
END
expect 0 print_router_ports <<'END'
r1-l2
END
while_sending on_routers mcaudit-draft --update > "$scratch/update" 2>&1 ||
    fail "the topology is another one at once: $(cat "$scratch/update")"

echo '- Right tables: each packet reaches the member once.'
expect 0 count_packets <<'END'
member 239.1.2.3 3
member 239.1.2.4 3
END
collect
expect 0 "$mcaudit" audit "$site" <<'END'
flow 10.77.0.5 239.1.2.3 ttl 4 yes copies 3
  wanted 1: 10.77.2.0-24
flow 10.77.0.5 239.1.2.4 ttl 4 yes copies 3
  wanted 1: 10.77.2.0-24
summary flows 2 right 2 wrong 0 unknown 0 unwanted 0 asked 0
verdict yes
END
make_certificate > "$site/certificate" || fail 'no certificate for right tables'
expect 0 check_certificate <<'END'
flow 10.77.0.5 239.1.2.3 ttl 4 yes copies 3
flow 10.77.0.5 239.1.2.4 ttl 4 yes copies 3
verdict yes
END

echo '- One entry too many on r2: packets of 239.1.2.4 reach the member twice.'
change_rows r2 add eth0 10.77.0.5 239.1.2.4 eth1
expect 0 count_packets <<'END'
member 239.1.2.3 3
member 239.1.2.4 6
END
collect
expect 1 "$mcaudit" audit "$site" --travel <<'END'
flow 10.77.0.5 239.1.2.3 ttl 4 yes copies 3
  wanted 1: 10.77.2.0-24
flow 10.77.0.5 239.1.2.4 ttl 4 wrong: Duplicate 10.77.2.0-24
  shown by packets sent with ttl 3 or more
  forwarded onto 10.77.2.0-24 by r1 eth2: entry (10.77.0.5,239.1.2.4) from eth0 to eth1 eth2 in cache-r1
  forwarded onto 10.77.2.0-24 by r2 eth1: entry (10.77.0.5,239.1.2.4) from eth0 to eth1 in cache-r2
  fix: remove eth1 from this entry of r2; every LAN reached now is still reached
  then audit again
event r1 0 ttl 255 sent 2 strayed 0
event r2 0 ttl 254 sent 1 strayed 0
summary flows 2 right 1 wrong 1 unknown 0 unwanted 0 asked 0
verdict no
END
expect 1 check_certificate <<'END'
flow 10.77.0.5 239.1.2.3 ttl 4 yes copies 3
flow 10.77.0.5 239.1.2.4 ttl 4 no Extra r2 1 10.77.2.0-24
verdict no
END

echo '- The remedy, eth1 out of the row of r2: each packet reaches the member once again.'
change_rows r2 remove eth0 10.77.0.5 239.1.2.4 eth1
expect 0 count_packets <<'END'
member 239.1.2.3 3
member 239.1.2.4 3
END
collect
expect 0 "$mcaudit" audit "$site" --faults <<'END'
summary flows 2 right 2 wrong 0 unknown 0 unwanted 0 asked 0
verdict yes
END
echo 'lab: the verdicts are those of the network'
