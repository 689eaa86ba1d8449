# What a router's bridge that snoops believes of the hosts behind its ports, for `--from-bridge`: it reads and changes
# nothing. The variables word and bridge are set by whoever sends this, behind sections.sh.
# shellcheck shell=sh
: "${word:=}"
: "${bridge:=}"

settings() {
    link=/sys/class/net/$bridge
    for name in ifindex bridge/vlan_filtering bridge/multicast_snooping bridge/multicast_igmp_version \
        bridge/multicast_querier bridge/multicast_query_interval bridge/multicast_query_response_interval; do
        echo "${name##*/} $(cat "$link/$name")"
    done
}
mdb() { limited bridge -j -d -s mdb show dev "$bridge"; }

echo "$word facts"
section settings settings
if has bridge; then section mdb mdb; else section mdb echo '!no bridge command'; fi
echo '@end'
echo "$word end"
