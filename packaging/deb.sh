#!/bin/sh
# Makes a Debian package of what `make install` installs, in the folder out. Usage: deb.sh VERSION
set -eu
umask 022
cd "$(dirname "$0")/.."
version=$1
room=$(mktemp -d)
trap 'rm -rf "$room"' EXIT
chmod 755 "$room"
mkdir -p out "$room/DEBIAN"
make -s install DESTDIR="$room" PREFIX=/usr ZSH=/usr/share/zsh/vendor-completions
gzip -9n "$room"/usr/share/man/man1/*.1
sh packaging/documents.sh "$room/usr/share/doc/mcaudit"
maintainer=$(git log -1 --format='%an <%ae>')
python3 -I packaging/debian_changelog.py "$maintainer" "$(git log -1 --format=%ct)" |
    gzip -9n > "$room/usr/share/doc/mcaudit/changelog.gz"
install -D -m 644 packaging/lintian-overrides "$room/usr/share/lintian/overrides/mcaudit"
{
    echo 'mcaudit may be used by either of these two licences.'
    echo
    cat LICENSE-MIT
    echo
    echo 'Apache-2.0: on Debian systems in /usr/share/common-licenses/Apache-2.0'
} > "$room/usr/share/doc/mcaudit/copyright"
cat > "$room/DEBIAN/control" <<END
Package: mcaudit
Version: $version
Architecture: amd64
Maintainer: $maintainer
Section: net
Priority: optional
Installed-Size: $(du -sk "$room/usr" | cut -f 1)
Depends: libc6 (>= 2.34), python3 (>= 3.9)
Recommends: python3 (>= 3.11), openssh-client, graphviz
Suggests: tcpdump, prometheus-node-exporter
Description: auditor of the multicast forwarding state of a domain of Linux routers
 It reads the multicast tables of all routers, and what the hosts of each LAN
 want, and says whether each stream reaches every LAN that wants it: no loop,
 no duplicate, no silent LAN. With tools that collect the tables, draft the
 topology, show an audit as a page and watch a domain.
END
cat > "$room/DEBIAN/postinst" <<'END'
#!/bin/sh
set -e
if [ "$1" = configure ] && command -v py3compile > /dev/null; then
    py3compile -p mcaudit /usr/share/mcaudit
fi
END
cat > "$room/DEBIAN/prerm" <<'END'
#!/bin/sh
set -e
if command -v py3clean > /dev/null; then
    py3clean -p mcaudit /usr/share/mcaudit
else
    find /usr/share/mcaudit -name __pycache__ -type d -prune -exec rm -rf {} +
fi
END
chmod 755 "$room/DEBIAN/postinst" "$room/DEBIAN/prerm"
(cd "$room" && find usr -type f -print0 | sort -z | xargs -0 md5sum > DEBIAN/md5sums)
find "$room" -type d -exec chmod 755 {} +
dpkg-deb --root-owner-group --build "$room" "out/mcaudit_${version}_amd64.deb"
