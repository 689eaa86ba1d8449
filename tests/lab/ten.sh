#!/bin/sh
# From nothing to a verdict and a page of ten routers, and each kind of fault with its remedy, on a network of this
# machine's kernel: ten routers with smcroute, ten LANs and four hosts, in network namespaces. mcaudit-site makes the
# whole folder and judges it, and mcaudit-page shows it. Then one fault after the other is made, audit has to tell it
# and what ends it, just that is done, and audit has to say yes. Before and after the hosts count what comes, and where
# commands end it, those of mcaudit-plan are carried out while hosts count.
# Usage: ten.sh PROGRAM [PAGES], a folder that keeps the pages
#
#   source -- l0 -- r1 -- l1 -- r2 -- l2 -- r4 -- l4 -- r6 -- l5 -- r7 -- l6 -- r8 -- l7 -- r9 -- l8 -- r10 -- l9
#                          \--- r3 -- l3 -- r5 --/            m5                      m7                       m9
#
# LAN l5 is 10.77.5.0/24, and so on; r7 has the addresses 10.77.5.7 and 10.77.6.7, and eth0 is the one nearer to the
# source. 239.1.2.3 goes by r2 and r4 to all members, 239.1.2.4 by r3 and r5 to m5. r9 has a device more, alone0.

set -u
routers='r1 r2 r3 r4 r5 r6 r7 r8 r9 r10'
members='m5=10.77.5.77 m7=10.77.7.77 m9=10.77.9.77'
sender=10.77.0.50
ttl=16
groups='239.1.2.3 239.1.2.4'
pages=${2:-}
[ $# -ne 2 ] || set -- "$1"
# shellcheck source=SCRIPTDIR/network.sh
. "$(dirname "$0")/network.sh"
[ -n "$pages" ] || pages=$scratch

# Joins a router to the LAN nearer to the source and to the one behind it.
join_router() {
    join "r$1" eth0 "l$2" "10.77.$2.$1"
    join "r$1" eth1 "l$3" "10.77.$3.$1"
}

build_network() {
    make_places
    for lan in 0 1 2 3 4 5 6 7 8 9; do make_lan "l$lan" 0; done
    join_router 1 0 1
    join_router 2 1 2
    join_router 3 1 3
    join_router 4 2 4
    join_router 5 3 4
    join_router 6 4 5
    join_router 7 5 6
    join_router 8 6 7
    join_router 9 7 8
    join_router 10 8 9
    ip -n "$lab-lans" link add r9-alone type veth peer name alone0 netns "$lab-r9" || fail 'no device alone0'
    ip -n "$lab-lans" link set r9-alone up
    ip -n "$lab-r9" link set alone0 up
    ip -n "$lab-r9" address add 10.78.0.1/30 dev alone0
    join source eth0 l0 "$sender"
    for lan in 5 7 9; do join "m$lan" eth0 "l$lan" "10.77.$lan.77"; done
}

# Starts a router whose rows send these groups from eth0 to eth1, by the line of standard input for eth1.
start_forwarding() {
    router=$1
    shift
    {
        echo phyint eth0 enable
        cat
        [ "$router" != r9 ] || echo phyint alone0 enable
        for group; do echo "mroute from eth0 source $sender group $group to eth1"; done
    } | start_router "$router" $(($# + 1))
}

start_routers() {
    echo phyint eth1 enable > "$scratch/eth1"
    for router in r1 r6; do start_forwarding "$router" 239.1.2.3 239.1.2.4 < "$scratch/eth1"; done
    for router in r2 r4 r7 r8 r9 r10; do start_forwarding "$router" 239.1.2.3 < "$scratch/eth1"; done
    for router in r3 r5; do start_forwarding "$router" 239.1.2.4 < "$scratch/eth1"; done
}

start_members() {
    for member in $members; do
        wanted=239.1.2.3
        [ "${member%%=*}" != m5 ] || wanted=$groups
        # shellcheck disable=SC2086 # a word each
        ip netns exec "$lab-${member%%=*}" python3 "$here/traffic.py" member "${member#*=}" 3600 $wanted > /dev/null &
        started="$started $!"
    done
}

# So many packets of 239.1.2.3 come to m5, m7 and m9 of three that are sent, and each of 239.1.2.4 to m5 alone.
expect_counts() {
    expect 0 count_packets <<END
m5 239.1.2.3 $1
m5 239.1.2.4 3
m7 239.1.2.3 $2
m7 239.1.2.4 0
m9 239.1.2.3 $3
m9 239.1.2.4 0
END
}

# All is right: what audit says, where 239.1.2.3 is sent with this ttl, and what the members count.
expect_right() {
    expect_counts 3 3 3
    collect
    expect 0 "$mcaudit" audit "$site" <<END
flow 10.77.0.50 239.1.2.3 ttl $ttl yes copies 9
  wanted 3: 10.77.5.0-24 10.77.7.0-24 10.77.9.0-24
flow 10.77.0.50 239.1.2.4 ttl 16 yes copies 5
  wanted 1: 10.77.5.0-24
summary flows 2 right 2 wrong 0 unknown 0 unwanted 0 asked 0
verdict yes
END
}

# What was wrong is mended: the members hear each packet once, and audit says yes, of whatever rows.
expect_mended() {
    expect_counts 3 3 3
    collect
    "$mcaudit" audit "$site" > "$scratch/audited" || fail "it is not mended: $(cat "$scratch/audited")"
    cat "$scratch/audited"
}

# Carries out the plan for the site, after the changes that are given, and says how often the members hear each packet.
play_plan() {
    python3 "$here/plans.py" "$lab" "$scratch" "$members" "$@" || fail 'the plan does not do what it says'
}

# Ends smcroute on a router, and with it its rows.
stop_router() {
    kill "$(cat "$scratch/$1.pid")"
    until [ "$(at "$1" cat /proc/net/ip_mr_cache | wc -l)" -eq 1 ]; do sleep 0.2; done
}

# Makes a page of the folder as it is, which says what audit says.
make_page() {
    "$tools/mcaudit-page" "$site" -o "$pages/$1.html" > "$scratch/paged"
    [ $? -eq "$2" ] || fail "the page $1 ended with another status than $2"
    cat "$scratch/paged"
    [ -s "$pages/$1.html" ] || fail "there is no page $1"
}

# One run of the monitor, with TIME for each set's.
watch_once() {
    on_routers mcaudit-monitor --keep 300 > "$scratch/watched" 2> "$scratch/said"
    watched=$?
    sed -e 's/20[0-9]*T[0-9]*Z/TIME/' -e 's/[0-9]* [a-z]* to \([0-9]* [a-z]* old\)/\1/g' \
        -e 's/[0-9][0-9]* [a-z]* old/N old/g' -e 's/([0-9] of 4 sets/(N of 4 sets/' \
        -e 's/\(by the last 4 sets\), .*/\1/' "$scratch/watched"
    return "$watched"
}

replay_first() {
    "$mcaudit" pack "$site" > "$scratch/bundle" && "$mcaudit" replay 1 16 < "$scratch/bundle"
}

begun=$(date +%s)
build_network
start_routers
start_members

echo '- From nothing: the whole folder in one go, its verdict, and its page.'
while_sending on_routers mcaudit-site init --ask-routers --empty --wait 5 --listen 0 > "$scratch/init" 2> "$scratch/said"
status=$?
cat "$scratch/init"
if [ "$status" -ne 1 ] || ! grep -q '^verdict yes$' "$scratch/init" || ! grep -q 'needs a decision: r9 alone0' "$scratch/said"; then
    fail "init ended with $status, where alone0 alone needs a decision: $(cat "$scratch/said")"
fi
make_page right 0
taken=$(($(date +%s) - begun))
echo "lab: from nothing to the page of ten routers: $taken s"
[ "$taken" -lt 600 ] || fail 'that took ten minutes'
expect_right
expect 0 watch_once <<'END'
TIME: verdict yes, flows 2, right 2, wrong 0, unwanted 0, unlisted 0, asked 0
tables N old; lists of 3 LANs N old; decided, not gathered: 10.77.0.0-24 10.77.1.0-24 10.77.2.0-24 10.77.3.0-24 10.77.4.0-24 10.77.6.0-24 10.77.8.0-24; packets: not looked at (N of 4 sets, each read after the one before); rp_filter, links, MTU, netfilter, ip mrule: not looked at (r1 r2 r3 r4 r5 r6 r7 r8 ..: not asked)
no audit before it is there to compare with
END

first=$(readlink -f "$site")
# smcroute gives a router a row that sends to nobody where packets come that none of its lines is for.
echo '- The travel of one packet: every copy ends where no row sends it on.'
expect 0 replay_first <<'END'
replay 10.77.0.50 239.1.2.3 ttl 16
event r1 0 ttl 16 sent 1 strayed 0
event r2 0 ttl 15 sent 1 strayed 0
event r3 0 ttl 15 sent 0 strayed 0
event r4 0 ttl 14 sent 1 strayed 0
event r5 1 ttl 13 sent 0 strayed 0
event r6 0 ttl 13 sent 1 strayed 0
event r7 0 ttl 12 sent 1 strayed 0
event r8 0 ttl 11 sent 1 strayed 0
event r9 0 ttl 10 sent 1 strayed 0
event r10 0 ttl 9 sent 1 strayed 0
finding Clean
END

echo '- Duplicate: r3 forwards 239.1.2.3 as well, and r5 with it. Each packet comes twice from l4 on.'
change_rows r5 add eth0 "$sender" 239.1.2.3 eth1
change_rows r3 add eth0 "$sender" 239.1.2.3 eth1
expect_counts 6 6 6
expect 1 watch_once <<'END'
TIME: verdict no, flows 2, right 1, wrong 1, unwanted 0, unlisted 0, asked 0
tables N old; lists of 3 LANs N old; decided, not gathered: 10.77.0.0-24 10.77.1.0-24 10.77.2.0-24 10.77.3.0-24 10.77.4.0-24 10.77.6.0-24 10.77.8.0-24; packets flow on 1 of 1 flows; rp_filter, links, MTU, netfilter, ip mrule: not looked at (r1 r2 r3 r4 r5 r6 r7 r8 ..: not asked)
packets: by the last 4 sets
wrong: 10.77.0.50 239.1.2.3 Duplicate 10.77.4.0-24
changed since TIME:
flow 10.77.0.50 239.1.2.3: new fault: Duplicate 10.77.4.0-24
verdict no, was yes
END
expect 1 "$tools/mcaudit-diff" "$first" "$site" <<'END'
flow 10.77.0.50 239.1.2.3: new fault: Duplicate 10.77.4.0-24
verdict no, was yes
END
expect 1 "$mcaudit" audit "$site" --faults <<'END'
flow 10.77.0.50 239.1.2.3 ttl 16 wrong: Duplicate 10.77.4.0-24
  shown by packets sent with ttl 4 or more
  forwarded onto 10.77.4.0-24 by r4 eth1: entry (10.77.0.50,239.1.2.3) from eth0 to eth1 in cache-r4
  forwarded onto 10.77.4.0-24 by r5 eth1: entry (10.77.0.50,239.1.2.3) from eth0 to eth1 in cache-r5
  fix: remove eth1 from this entry of r5; every LAN reached now is still reached
  then audit again
summary flows 2 right 1 wrong 1 unknown 0 unwanted 0 asked 0
verdict no
END
make_page duplicate 1
echo '- The remedy, and the plan: eth1 out of the row of r5.'
expect 0 play_plan <<END
flow $sender 239.1.2.3
before   # then Duplicate 10.77.4.0-24
    heard: m5 2 m7 2 m9 2
r5: smcroutectl remove eth0 $sender 239.1.2.3 eth1   # then right
    heard: m5 1 m7 1 m9 1
END
expect_mended
change_rows r3 remove eth0 "$sender" 239.1.2.3 eth1

# Sent with 16, a copy is on l1 with 15, 11, 7 and 3: each time round takes four. So l5 carries copies with 12, 8 and 4,
# l7 with 10, 6 and 2, and l9 with 8 and 4: r10 lets the third fall, which has 1 on l8.
echo '- Loop: r5 sends 239.1.2.3 back onto l3, and r3 onto l1.'
change_rows r5 add eth1 "$sender" 239.1.2.3 eth0
change_rows r3 add eth1 "$sender" 239.1.2.3 eth0
expect_counts 9 9 6
collect
expect 1 "$mcaudit" audit "$site" --faults <<'END'
flow 10.77.0.50 239.1.2.3 ttl 16 wrong: Loop 10.77.1.0-24
  shown by packets sent with ttl 6 or more
  10.77.1.0-24 to 10.77.2.0-24 through r2, eth0 to eth1: entry (10.77.0.50,239.1.2.3) from eth0 to eth1 in cache-r2
  10.77.2.0-24 to 10.77.4.0-24 through r4, eth0 to eth1: entry (10.77.0.50,239.1.2.3) from eth0 to eth1 in cache-r4
  10.77.4.0-24 to 10.77.3.0-24 through r5, eth1 to eth0: entry (10.77.0.50,239.1.2.3) from eth1 to eth0 in cache-r5
  10.77.3.0-24 to 10.77.1.0-24 through r3, eth1 to eth0: entry (10.77.0.50,239.1.2.3) from eth1 to eth0 in cache-r3
  fix: remove eth0 from this entry of r3; every LAN reached now is still reached
  then audit again
summary flows 2 right 1 wrong 1 unknown 0 unwanted 0 asked 0
verdict no
END
make_page loop 1
echo '- The remedy, and the plan: eth0 out of the row of r3.'
expect 0 play_plan <<END
flow $sender 239.1.2.3
before   # then Loop 10.77.1.0-24
    heard: m5 3 m7 3 m9 2
r3: smcroutectl remove eth1 $sender 239.1.2.3 eth0   # then right
    heard: m5 1 m7 1 m9 1
END
expect_mended
change_rows r5 remove eth1 "$sender" 239.1.2.3 eth0
expect_right

echo '- Stray: r9 sends 239.1.2.3 by alone0 as well, which is on no LAN of the topology.'
change_rows r9 remove eth0 "$sender" 239.1.2.3 eth1
change_rows r9 add eth0 "$sender" 239.1.2.3 eth1 alone0
collect
stray=$(at r9 sed -n 's/^ *\([0-9]*\) alone0 .*/\1/p' /proc/net/ip_mr_vif)
expect 1 "$mcaudit" audit "$site" --faults <<END
flow 10.77.0.50 239.1.2.3 ttl 16 wrong: Stray r9 $stray
  shown by packets sent with ttl 8 or more
  alone0 of r9 is on no listed LAN
  entry (10.77.0.50,239.1.2.3) from eth0 to eth1 alone0 in cache-r9
summary flows 2 right 1 wrong 1 unknown 0 unwanted 0 asked 0
verdict no
END
make_page stray 1
echo '- The remedy of the guide, and the plan: alone0 out of the row of r9.'
expect 0 play_plan <<END
flow $sender 239.1.2.3
before   # then Stray r9 $stray
    heard: m5 1 m7 1 m9 1
r9: smcroutectl remove eth0 $sender 239.1.2.3 alone0   # then right
    heard: m5 1 m7 1 m9 1
END
expect_right

echo '- Missed: the row of r8 has lost eth1. m7 and m9 get nothing.'
change_rows r8 remove eth0 "$sender" 239.1.2.3 eth1
expect_counts 3 0 0
collect
expect 1 "$mcaudit" audit "$site" --faults <<'END'
flow 10.77.0.50 239.1.2.3 ttl 16 wrong: Missed 10.77.7.0-24
  reaches: r8
  10.77.7.0-24: r8 receives it from 10.77.6.0-24 and does not forward it to eth1: entry (10.77.0.50,239.1.2.3) from eth0 to none in cache-r8
  10.77.7.0-24: expected from here by r9
  10.77.7.0-24: no entry for this flow forwards onto it
  also missed: 10.77.9.0-24
summary flows 2 right 1 wrong 1 unknown 0 unwanted 0 asked 0
verdict no
END
make_page missed 1
expect 1 "$mcaudit" audit "$site" --faults --without r8 <<'END'
flow 10.77.0.50 239.1.2.3 ttl 16 unknown: Missed 10.77.7.0-24
  by the known tables no router of this search receives it
  10.77.7.0-24: r8 is excluded: its tables are unknown
  10.77.7.0-24: expected from here by r9
  also missed: 10.77.9.0-24
excluded r8
summary flows 2 right 0 wrong 0 unknown 2 unwanted 0 asked 0
  excluded: r8: the verdict is no; a yes requires all routers
verdict no
END
echo '- The remedy of the guide, and the plan: the row of r8 gets eth1.'
expect 0 play_plan <<END
flow $sender 239.1.2.3
before   # then Missed 10.77.7.0-24
    heard: m5 1 m7 0 m9 0
r8: smcroutectl add eth0 $sender 239.1.2.3 eth1   # then right
    heard: m5 1 m7 1 m9 1
END
expect_right

# r8 forwards by no entry while it is turned, and had forwarded by none before, since no packets come to it from l7.
echo '- Missed: the row of r8 goes the other way, from eth1 to eth0. m7 and m9 get nothing.'
change_rows r8 remove eth0 "$sender" 239.1.2.3
change_rows r8 add eth1 "$sender" 239.1.2.3 eth0
collect
echo '- The plan: the row is turned.'
expect 0 play_plan <<END
flow $sender 239.1.2.3
before   # then Missed 10.77.7.0-24
    heard: m5 1 m7 0 m9 0
r8: smcroutectl remove eth1 $sender 239.1.2.3   # then Missed 10.77.7.0-24
    heard: m5 1 m7 0 m9 0
r8: smcroutectl add eth0 $sender 239.1.2.3 eth1   # then right
    heard: m5 1 m7 1 m9 1
END
expect_right

# Packets that came to r5 from l4 had smcroute make a row there that sends them to nobody. It has no rule for it, so
# it gets one first. r3 has kept such a row since the loop, and tables don't tell that it has a rule.
echo '- A router goes down: r2. m5, m7 and m9 get nothing.'
stop_router r2
echo '- The plan for that, by r3 and r5.'
expect 0 play_plan 'r2: down' <<END
flow $sender 239.1.2.3
before   # then Missed 10.77.5.0-24
    heard: m5 0 m7 0 m9 0
r5: smcroutectl add eth1 $sender 239.1.2.3   # then Missed 10.77.5.0-24
    heard: m5 0 m7 0 m9 0
r5: smcroutectl add eth0 $sender 239.1.2.3 eth1   # then Missed 10.77.5.0-24
    heard: m5 0 m7 0 m9 0
r3: smcroutectl add eth1 $sender 239.1.2.3   # then Missed 10.77.5.0-24
    heard: m5 0 m7 0 m9 0
r3: smcroutectl add eth0 $sender 239.1.2.3 eth1   # then right
    heard: m5 1 m7 1 m9 1
when what is down is back: Duplicate 10.77.4.0-24
END
expect_mended
echo '- What the plan says of the time when r2 is back with its row: each packet comes twice.'
start_forwarding r2 239.1.2.3 < "$scratch/eth1"
expect_counts 6 6 6
change_rows r3 remove eth0 "$sender" 239.1.2.3 eth1
change_rows r5 remove eth0 "$sender" 239.1.2.3 eth1
expect_right

# A copy has 10 on l7 by r2 and r4, and 11 by r5 alone. Between the two commands nobody gets anything: the other way round
# m5 and m7 would hear packets twice.
echo '- Missed, with a shorter path: r5 gets a device on l1, and r9 sends by eth1 only above threshold 10.'
stop_router r5
join r5 eth2 l1 10.77.1.5
start_forwarding r5 239.1.2.4 <<'END'
phyint eth1 enable
phyint eth2 enable
END
stop_router r9
start_forwarding r9 239.1.2.3 <<'END'
phyint eth1 enable ttl-threshold 10
END
sed -i 's/^{router = "r5", device = "eth1".*/&\n{router = "r5", device = "eth2", lan = "10.77.1.0-24"},/' "$site/topology"
expect_counts 3 3 0
collect
echo '- The plan, with a gap: the shorter path in the place of the longer one.'
expect 0 play_plan <<END
flow $sender 239.1.2.3
before   # then Missed 10.77.9.0-24
    heard: m5 1 m7 1 m9 0
r4: smcroutectl remove eth0 $sender 239.1.2.3 eth1   # then Missed 10.77.5.0-24; without the stream: 10.77.5.0-24 10.77.7.0-24
    heard: m5 0 m7 0 m9 0
r5: smcroutectl add eth2 $sender 239.1.2.3 eth1   # then right
    heard: m5 1 m7 1 m9 1
END
expect_mended
change_rows r5 remove eth2 "$sender" 239.1.2.3 eth1
change_rows r4 add eth0 "$sender" 239.1.2.3 eth1

# A copy that is sent with 16 has 10 on l7. To have 13 there it is sent with 19.
echo '- Missed at the time to live of the flow: r9 sends by eth1 only above threshold 12. m9 gets nothing.'
stop_router r9
start_forwarding r9 239.1.2.3 <<'END'
phyint eth1 enable ttl-threshold 12
END
collect
expect 1 "$mcaudit" audit "$site" --faults <<'END'
flow 10.77.0.50 239.1.2.3 ttl 16 wrong: Missed 10.77.9.0-24
  10.77.9.0-24 is reached by packets sent with ttl 19 or more; this flow is listed with ttl 16
  stopped at r9 eth1: ttl 10 is not above threshold 12
summary flows 2 right 1 wrong 1 unknown 0 unwanted 0 asked 0
verdict no
END
make_page threshold 1
ttl=18
expect_counts 3 3 0
echo '- The remedy of the guide: the source sends with 19, and the topology says so.'
ttl=19
sed -i 's/group = "239.1.2.3", ttl = 16/group = "239.1.2.3", ttl = 19/' "$site/topology"
expect_right
echo 'lab: each remedy is one'
