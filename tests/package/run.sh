#!/bin/sh
# Checks the Debian package with lintian, installs it in a clean root, tries the program and its tools there, and removes
# it again: nothing is left. Usage: run.sh PACKAGE, what `make deb` makes. It needs root, lintian, debootstrap, and a
# mirror of Debian.
set -eu
package=$(realpath "$1")
sh "$(dirname "$0")/../packages.sh" package
room=$(mktemp -d)
trap 'rm -rf "$room"' EXIT

in_room() {
    chroot "$room" env DEBIAN_FRONTEND=noninteractive LC_ALL=C "$@"
}

fail() {
    echo "package: $*" >&2
    exit 1
}

print_files() {
    in_room find / -xdev \( -path /proc -o -path /sys -o -path /dev -o -path /tmp -o -path /var/cache -o -path /var/log \
        -o -path /var/lib/dpkg -o -path /var/lib/apt \) -prune -o -iname '*mcaudit*' -print
}

lintian --fail-on error,warning "$package" > "$room.log" 2>&1 || fail "$(cat "$room.log")"
debootstrap --variant=minbase --include=python3 bookworm "$room" > "$room.log" 2>&1 || fail "$(tail -n 3 "$room.log")"
rm "$room.log"
cp "$package" "$room/tmp/mcaudit.deb"
in_room apt-get install -y --no-install-recommends /tmp/mcaudit.deb > "$room/tmp/said" 2>&1 || fail "$(cat "$room/tmp/said")"
documents=$room/usr/share/doc/mcaudit
for link in $(grep -o ']([^)#]*' "$documents/README.md" | cut -c 3-); do
    [ -s "$documents/$link" ] || fail "README.md leads to $link, which is not there"
done
in_room cp -R /usr/share/doc/mcaudit/examples/network /usr/share/doc/mcaudit/examples/second-router /tmp
status=0
in_room mcaudit audit /tmp/second-router > "$room/tmp/audited" || status=$?
[ "$status" -eq 1 ] || fail "an audit of a fault ended with $status"
cmp "$room/tmp/audited" - <<'END' || fail 'the audit says something else'
flow 10.0.0.5 239.1.2.3 ttl 3 wrong: Duplicate l2
  shown by packets sent with ttl 3 or more
  forwarded onto l2 by r3 eth1: entry (10.0.0.5,239.1.2.3) from eth0 to eth1 in cache-r3
  forwarded onto l2 by r2 eth1: entry (10.0.0.5,239.1.2.3) from eth0 to eth1 in cache-r2
  fix: remove eth1 from this entry of r2; every LAN reached now is still reached
  then audit again
summary flows 1 right 0 wrong 1 unknown 0 unwanted 0 asked 0
verdict no
END
in_room mcaudit audit /tmp/network | grep -qx 'verdict yes' || fail 'an audit of what is right says no yes'
for tool in collect diff draft monitor page plan premises query reports site try; do
    in_room "mcaudit-$tool" --version
done
for file in man/man1/mcaudit.1.gz man/man1/mcaudit-site.1.gz bash-completion/completions/mcaudit-site \
    fish/vendor_completions.d/mcaudit-site.fish zsh/vendor-completions/_mcaudit; do
    in_room test -s "/usr/share/$file" || fail "no $file"
done
[ -n "$(print_files)" ] || fail 'nothing was installed'
in_room apt-get remove -y --purge mcaudit > "$room/tmp/said" 2>&1 || fail "$(cat "$room/tmp/said")"
left=$(print_files)
[ -z "$left" ] || fail "left behind: $left"
echo 'package: installed, tried, and removed'
