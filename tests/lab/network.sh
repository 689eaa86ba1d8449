# shellcheck shell=sh disable=SC2034,SC2154
# What the networks of the lab have in common: each place, a router or a host, is a network namespace, and each LAN
# is a bridge in one more of them. The scripts beside this file read it by `.`, with the path of the built program as
# their one word, after they set `routers` to the routers' names and `members` to the hosts that want something, each
# with its address, NAME=ADDRESS; one more host is `source`. It needs root, and the lab's packages; what it made it takes
# away again. The flows are those from `sender` to each of `groups`, with the time to live `ttl`.

if [ "$(id -u)" -ne 0 ]; then
    echo 'the lab needs root' >&2
    exit 1
fi
here=$(cd "$(dirname "$0")" && pwd) || exit 1
sh "$here/../packages.sh" lab || exit 1
if [ $# -ne 1 ] || [ ! -x "$1" ]; then
    echo "Usage: $0 PROGRAM, the built mcaudit (make)" >&2
    exit 1
fi

mcaudit=$(cd "$(dirname "$1")" && pwd)/$(basename "$1")
tools=$(cd "$here/../../tools" && pwd) || exit 1
PATH=$(dirname "$mcaudit"):$PATH
export PATH
lab=mclab$$
scratch=$(mktemp -d) || exit 1
site=$scratch/site
started=

# shellcheck disable=SC2154 # these are set by the script that reads this
print_places() {
    echo lans "$routers" source
    for member in $members; do echo "${member%%=*}"; done
}

take_away() {
    for process in $started; do
        kill "$process" 2> /dev/null
        wait "$process" 2> /dev/null
    done
    for file in "$scratch"/*.pid; do
        [ ! -s "$file" ] || kill "$(cat "$file")" 2> /dev/null
    done
    for place in $(print_places); do
        ip netns del "$lab-$place" 2> /dev/null
    done
    rm -rf "$scratch"
}
trap take_away EXIT
trap 'exit 1' HUP INT TERM

fail() {
    echo "lab: $1" >&2
    exit 1
}

# Runs the further words at a place.
at() {
    place=$lab-$1
    shift
    ip netns exec "$place" "$@"
}

make_places() {
    for place in $(print_places); do
        ip netns add "$lab-$place" || fail "no network namespace $lab-$place"
        ip -n "$lab-$place" link set lo up
        echo 0 | at "$place" tee /proc/sys/net/ipv4/conf/all/rp_filter \
            /proc/sys/net/ipv4/conf/default/rp_filter > /dev/null
    done
}

# Makes a LAN, whose switch snoops (1) or doesn't (0).
make_lan() {
    ip -n "$lab-lans" link add "$1" type bridge mcast_snooping "$2" || fail "no bridge $1"
    ip -n "$lab-lans" link set "$1" up
}

# Joins a place to a LAN by a device with an address.
join() {
    ip -n "$lab-lans" link add "$1-$3" type veth peer name "$2" netns "$lab-$1" ||
        fail "no link of $1 to $3"
    ip -n "$lab-lans" link set "$1-$3" master "$3" up
    ip -n "$lab-$1" link set "$2" up
    ip -n "$lab-$1" address add "$4/24" dev "$2"
}

# Starts smcroute on a router, by the lines of standard input, which give its cache so many lines.
start_router() {
    cat > "$scratch/$1.conf"
    ip netns exec "$lab-$1" smcrouted -n -N -f "$scratch/$1.conf" -i "$lab-$1" -P "$scratch/$1.pid" \
        -u "$scratch/$1.sock" > "$scratch/$1.said" 2>&1 &
    started="$started $!"
    tries=0
    until [ "$(at "$1" cat /proc/net/ip_mr_cache | wc -l)" -eq "$2" ]; do
        tries=$((tries + 1))
        [ "$tries" -lt 50 ] || fail "smcroute on $1: $(cat "$scratch/$1.said")"
        sleep 0.2
    done
}

# Changes a router's rows by the further words of smcroutectl.
change_rows() {
    router=$1
    shift
    at "$router" smcroutectl -i "$lab-$router" -u "$scratch/$router.sock" "$@" || fail "$router: $*: not done"
}

# Sends so many packets of each flow.
# shellcheck disable=SC2154 # these are set by the script that reads this
send() {
    # shellcheck disable=SC2086 # a word each
    at source python3 "$here/traffic.py" source "$sender" "$ttl" "$1" $groups
}

# Sends packets of all flows all the while that the further words run.
while_sending() {
    send 6000 2> /dev/null &
    sending=$!
    "$@"
    status=$?
    pkill -P "$sending"
    kill "$sending" 2> /dev/null
    wait "$sending" 2> /dev/null
    return "$status"
}

# Sends three packets of each flow while the members listen, and says how many reached each.
count_packets() {
    listening=
    for member in $members; do
        # shellcheck disable=SC2086 # a word each
        ip netns exec "$lab-${member%%=*}" python3 "$here/traffic.py" member "${member#*=}" 60 $groups \
            > "$scratch/came-${member%%=*}" &
        listening="$listening $!"
    done
    sleep 1
    send 3
    sleep 1
    for process in $listening; do
        kill "$process"
        wait "$process"
    done
    for member in $members; do sed "s/^/${member%%=*} /" "$scratch/came-${member%%=*}"; done
}

# Runs one of the tools that ask all routers of the site.
on_routers() {
    tool=$1
    shift
    for router in $routers; do
        echo "$router=!ip netns exec $lab-$router"
    done > "$scratch/routers"
    "$tools/$tool" "$@" --routers "$scratch/routers" "$site"
}

# Collects the routers into a new set.
collect() {
    on_routers mcaudit-collect > "$scratch/collected" 2>&1 ||
        fail "the tables were not collected: $(cat "$scratch/collected")"
    tail -n 1 "$scratch/collected"
}

# Compares what the further words print with the lines of standard input, and their status.
expect() {
    wanted=$1
    shift
    cat > "$scratch/expected"
    "$@" > "$scratch/printed"
    status=$?
    diff "$scratch/expected" "$scratch/printed" || fail "$* printed something else"
    [ "$status" -eq "$wanted" ] || fail "$* ended with $status, not $wanted"
    cat "$scratch/printed"
}
