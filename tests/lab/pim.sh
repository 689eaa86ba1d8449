#!/bin/sh
# PIM sparse mode, on a network of this machine's kernel: three routers with FRR's pimd, four LANs and two hosts, in
# network namespaces; r2 is the rendezvous point, and each router asks the hosts of its LANs. mcaudit-site makes the
# whole folder. First r3 stays on the shared tree: the member gets the stream by rows for every source, which mcaudit
# does not follow, and says so. Then r3 may change over to the way of the source, and audit has to say yes.
# Usage: pim.sh PROGRAM
#
#   source 10.77.0.50 -- l0 -- r1 -- l1 -- r2 -- l2 -- r3 -- l3 -- member 10.77.3.77
#
# LAN l2 is 10.77.2.0/24, and so on; r3 has the addresses 10.77.2.3 and 10.77.3.3.

set -u
routers='r1 r2 r3'
members='member=10.77.3.77'
sender=10.77.0.50
ttl=8
groups=239.1.2.3
# shellcheck source=SCRIPTDIR/network.sh
. "$(dirname "$0")/network.sh"
frr=$scratch/frr

# Joins a router to the LAN nearer to the source and to the one behind it, which lie before and behind it.
join_router() {
    join "r$1" eth0 "l$(($1 - 1))" "10.77.$(($1 - 1)).$1"
    join "r$1" eth1 "l$1" "10.77.$1.$1"
    at "r$1" sysctl -qw net.ipv4.ip_forward=1
    for lan in 0 1 2 3; do
        if [ "$lan" -lt $(($1 - 1)) ]; then
            ip -n "$lab-r$1" route add "10.77.$lan.0/24" via "10.77.$(($1 - 1)).$(($1 - 1))"
        elif [ "$lan" -gt "$1" ]; then
            ip -n "$lab-r$1" route add "10.77.$lan.0/24" via "10.77.$1.$(($1 + 1))"
        fi
    done
}

build_network() {
    make_places
    for lan in 0 1 2 3; do make_lan "l$lan" 0; done
    for router in 1 2 3; do join_router "$router"; done
    join source eth0 l0 "$sender"
    join member eth0 l3 10.77.3.77
    ip -n "$lab-source" route add default via 10.77.0.1
    ip -n "$lab-member" route add default via 10.77.3.3
}

# Starts zebra and pimd on a router, by further lines of standard input.
start_pim() {
    folder=$frr/$1
    mkdir "$folder"
    {
        echo "hostname $1"
        for device in eth0 eth1; do
            printf 'interface %s\n ip pim\n ip igmp\n ip igmp query-interval 10\n' "$device"
            printf ' ip igmp query-max-response-time 30\nexit\n'
        done
        echo ip pim rp 10.77.1.2 224.0.0.0/4
        cat
    } > "$folder/pimd.conf"
    echo "hostname $1" > "$folder/zebra.conf"
    chown -R frr: "$folder"
    for daemon in zebra pimd; do
        at "$1" "/usr/lib/frr/$daemon" -d -N "$lab-$1" -f "$folder/$daemon.conf" -i "$folder/$daemon.pid" \
            -z "$folder/zserv" --vty_socket "$folder" > "$folder/$daemon.said" 2>&1 ||
            fail "$daemon on $1: $(cat "$folder/$daemon.said")"
        started="$started $(cat "$folder/$daemon.pid")"
    done
}

start_routers() {
    chmod 711 "$scratch"
    mkdir -m 711 "$frr"
    for router in r1 r2; do start_pim "$router" < /dev/null; done
    echo ip pim spt-switchover infinity-and-beyond | start_pim r3
}

# Waits until a router's cache has this row, or hasn't.
wait_for_row() {
    tries=0
    until at "$1" grep -q "$2" /proc/net/ip_mr_cache; do
        tries=$((tries + 1))
        [ "$tries" -lt 300 ] || fail "$1 has no row $2: $(at "$1" ip mroute show)"
        sleep 0.2
    done
}

init_site() {
    wait_for_row r2 '^030201EF 32004D0A'
    wait_for_row r3 '^030201EF 00000000'
    sleep 5
    on_routers mcaudit-site init --empty --wait 30 --tries 3
}

audit_while_sending() {
    wait_for_row r3 '^030201EF 32004D0A'
    sleep 5
    collect > /dev/null
    "$mcaudit" audit "$site"
}

build_network
start_routers
ip netns exec "$lab-member" python3 "$here/traffic.py" member 10.77.3.77 3600 239.1.2.3 > /dev/null &
started="$started $!"

echo '- r3 stays on the shared tree: the member gets the stream, and mcaudit does not follow it.'
while_sending init_site > "$scratch/init" 2> "$scratch/said"
cat "$scratch/init" "$scratch/said"
expect 0 count_packets <<'END'
member 239.1.2.3 3
END
vif=$(at r3 sed -n 's/^ *\([0-9]*\) eth0 .*/\1/p' /proc/net/ip_mr_vif)
expect 1 "$mcaudit" audit "$site" <<END
flow 10.77.0.50 239.1.2.3 ttl 8 wrong: Stray r3 $vif
  shown by packets sent with ttl 3 or more
  a copy arrives at r3 eth0, which has no resolved (S,G) entry for it, but one for every source: entry (*,239.1.2.3) from eth0 to eth0 eth1 in cache-r3
  this may be healthy: mcaudit audits (S,G) trees only
  behind it: not known past r3
summary flows 1 right 0 wrong 1 unknown 0 unwanted 0 asked 0
verdict no
END

echo '- r3 changes over to the way of the source.'
vtysh --vty_socket "$frr/r3" -c 'configure terminal' -c 'no ip pim spt-switchover infinity-and-beyond'
expect 0 while_sending audit_while_sending <<'END'
flow 10.77.0.50 239.1.2.3 ttl 8 yes copies 4
  wanted 1: 10.77.3.0-24
summary flows 1 right 1 wrong 0 unknown 0 unwanted 0 asked 0
verdict yes
END
expect 0 count_packets <<'END'
member 239.1.2.3 3
END
echo 'lab: a shared tree is named, and the path from the source is audited'
