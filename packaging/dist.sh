#!/bin/sh
# Makes the two archives of a version in the folder out: the source as it was committed, and what `make install`
# installs, to be unpacked at the root of a file system. Usage: dist.sh VERSION
set -eu
umask 022
cd "$(dirname "$0")/.."
name=mcaudit-$1
room=$(mktemp -d)
trap 'rm -rf "$room"' EXIT
mkdir -p out
git archive --prefix="$name/" -o "out/$name.tar.gz" HEAD
make -s install DESTDIR="$room" PREFIX=/usr/local
sh packaging/documents.sh "$room/usr/local/share/doc/mcaudit"
tar -C "$room" --sort=name --owner=0 --group=0 --numeric-owner --mtime="$(git log -1 --format=%cI)" \
    -czf "out/$name-linux-x86_64.tar.gz" usr
ls -l "out/$name.tar.gz" "out/$name-linux-x86_64.tar.gz"
