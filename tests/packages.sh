#!/bin/sh
# Sees that what a purpose needs is there: the packages of the file `packages` that name it. What is missing is
# installed where that may be (as root or by sudo, with apt-get), and else named.
# Usage: packages.sh gate|lab|page|monitor|package|fuzz

packages=$(cd "$(dirname "$0")/.." && pwd)/packages || exit 1
purpose=${1:?Usage: packages.sh gate|lab|page|monitor|package|fuzz}

# The missing packages of the purpose.
print_missing() {
    sed '/^#/d' "$packages" | while read -r package command purposes; do
        case " $purposes " in
            *" $purpose "*) command -v "$command" > /dev/null || printf ' %s' "$package" ;;
        esac
    done
}

install_packages() {
    if ! command -v apt-get > /dev/null; then return 1; fi
    root=
    [ "$(id -u)" -eq 0 ] || root='sudo -n'
    # shellcheck disable=SC2086 # nothing, or two words
    $root apt-get update -q && $root env DEBIAN_FRONTEND=noninteractive apt-get install -q -y "$@"
}

PATH=$PATH:/usr/sbin:/sbin
missing=$(print_missing)
[ -n "$missing" ] || exit 0
echo "installing:$missing"
# shellcheck disable=SC2086 # names of packages
install_packages $missing
missing=$(print_missing)
[ -n "$missing" ] || exit 0
echo "the $purpose needs these packages, which are not there:$missing" >&2
exit 1
