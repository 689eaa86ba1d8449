# What a router's multicast tables don't show, printed for `mcaudit-collect --facts`. It reads and changes nothing; sh,
# cat and the commands of BusyBox are enough, and what can't be had is left out or has the line `!` and the reason. As
# root it shows the filters too. Each section begins with a line `@NAME`, and each line of it with a blank, so that no
# text of the router can look like a section. The variable word is set by whoever sends this, behind sections.sh.
# shellcheck shell=sh
: "${word:=}"

# One file a line, PATH and value; what can't be read has no line. The shell's own read won't do: it reads byte by byte,
# and a file below /proc/sys gives nothing after the first one.
values() { grep -sH . "$@" | sed 's/:/ /'; }

# The devices that have a vif.
devices() { awk 'NR > 1 { print $2 }' /proc/net/ip_mr_vif | sort -u; }

settings() {
    for device in all $(devices); do
        for name in rp_filter mc_forwarding accept_local src_valid_mark; do
            values "/proc/sys/net/ipv4/conf/$device/$name"
        done
    done
    values /proc/sys/net/ipv4/ip_forward /proc/sys/net/bridge/bridge-nf-call-iptables
    true
}

# What kind of device it is: bridge, vrf, bond ..
kind_of() { sed -n 's/^DEVTYPE=//p' "/sys/class/net/$1/uevent"; }

links() {
    for device in $(devices); do
        link=/sys/class/net/$device
        [ -d "$link" ] || { echo "$link gone"; continue; }
        values "$link/ifindex" "$link/operstate" "$link/carrier" "$link/flags" "$link/mtu" "$link/phys_switch_id" \
            "$link/bridge/multicast_snooping" "$link/bridge/multicast_querier" "$link/bridge/multicast_router"
        if [ -e "$link/master" ]; then
            master=$(readlink "$link/master")
            echo "$link/master ${master##*/}"
            echo "$link/master_kind $(kind_of "${master##*/}")"
            [ ! -d "$link/brport" ] || echo "$link/brport yes"
        fi
        set +f
        set -- "$link"/brif/*
        set -f
        for port; do
            [ -e "$port" ] || continue
            port=${port##*/}
            echo "$link/port $port"
            values "/sys/class/net/$port/carrier" "/sys/class/net/$port/brport/multicast_router" \
                "/sys/class/net/$port/brport/multicast_flood"
        done
    done
    true
}

# The sources of the cache, dotted: the kernel prints an address as a number of the machine, whose order is told.
sources() {
    awk -v order="$order" '
        function digit(at) { return index(digits, substr(word, at, 1)) - 1 }
        function octet(at) { return 16 * digit(at) + digit(at + 1) }
        BEGIN { digits = "0123456789ABCDEF" }
        NR > 1 && $2 != "00000000" && !($2 in seen) {
            seen[$2] = 1
            word = toupper($2)
            if (order == "big") print octet(1) "." octet(3) "." octet(5) "." octet(7)
            else print octet(7) "." octet(5) "." octet(3) "." octet(1)
        }' /proc/net/ip_mr_cache
}

# The routes back to the sources: first each source, then what is found for them in their order, all at once where ip is
# iproute2's, and then which of them failed. Else at most 500 by a run of ip each.
routes() {
    found=$(sources)
    printf '%s\n' "$found" | sed -n 's/^[0-9][0-9.]*$/source &/p'
    if ip -j route get fibmatch 127.0.0.1 > /dev/null 2>&1; then
        {
            failed=$(printf '%s\n' "$found" | sed -n 's/^[0-9][0-9.]*$/route get fibmatch &/p' |
                ip -j -force -batch - 2>&1 >&3 | grep 'Command failed')
        } 3>&1
        printf '%s\n' "$failed"
        return 0
    fi
    ip route get 127.0.0.1 > /dev/null || return
    for source in $(printf '%s\n' "$found" | head -n 500); do
        echo "get $source $(ip route get "$source" 2> /dev/null | tr '\n' ' ')"
    done
}
addresses() { ip -j -4 address || ip -4 address; }

# The rules of nftables, which aren't asked for where its module isn't there: asking would load it.
is_nft_there() { [ -d /sys/module/nf_tables ] || grep -qs nf_tables /proc/kallsyms; }
nft_rules() {
    if is_nft_there; then
        if has nft; then nft -j list ruleset; else echo '!none'; fi
    elif [ -r /proc/kallsyms ]; then
        echo '!not loaded'
    else
        echo '!not known'
    fi
}
# The devices of its chains, which the JSON of older ones doesn't name.
nft_devices() { if is_nft_there && has nft; then nft list chains netdev; fi; }

# The older tables of iptables; only those that are there, since asking for another one makes it.
older_rules() {
    file /proc/net/ip_tables_names > /dev/null || { [ ! -e /proc/net/ip_tables_names ]; return; }
    file /proc/net/ip_tables_names | while read -r table; do
        if has iptables-legacy-save; then
            iptables-legacy-save -t "$table"
        elif ! has iptables-save; then
            echo "!table $table"
        else
            case $(iptables-save --version) in
                *nf_tables*) echo "!table $table" ;;
                *) iptables-save -t "$table" ;;
            esac
        fi
    done
}
# Queueing that filters or loses packets.
queues() { tc qdisc show | grep -e ' ingress ' -e ' clsact ' -e ' netem '; true; }

order=little
! grep -qs E0000001 /proc/net/igmp || order=big
echo "$word facts"
boot=$(file /proc/sys/kernel/random/boot_id)
section about echo "order $order uid $(id -u) kernel $(uname -r) machine $(uname -m) time $(date +%s) boot $boot"
for name in ip_mr_vif ip_mr_cache igmp snmp netstat dev raw; do
    section "$name" file "/proc/net/$name"
done
section settings settings
section links links
if has ip; then
    section address addresses
    section rule ip rule show
    section mrule ip mrule show
    section mroute ip mroute show table all
    section routes routes
fi
section route file /proc/net/route
section nft nft_rules
section nft_devices nft_devices
section legacy older_rules
if has bridge; then section mdb bridge -j -d mdb show; fi
if has tc; then section tc queues; fi
if has vtysh; then
    answered frr_igmp asked 'show ip igmp interface json'
    answered frr_neighbors asked 'show ip pim neighbor json'
fi
echo '@end'
echo "$word end"
