# What scripts that ask a router for sections have in common. Each section begins with a line `@NAME`, and each line of
# it with a blank, so that no text of the router can look like a section. What can't be had has the line `!` and the
# reason.
# shellcheck shell=sh
LC_ALL=C
PATH=$PATH:/sbin:/usr/sbin:/usr/local/sbin
export LC_ALL PATH
set -f
most=4194305 # bytes of a section, and one
most_answered=8388609 # bytes of what a daemon answers, and one

has() { command -v "$1" > /dev/null 2>&1; }

# Lets so many bytes of its input through.
if [ "$(echo word | head -c 2 2> /dev/null)" = wo ]; then
    bounded() { head -c "$1"; }
else
    bounded() { cat; }
fi
# Puts a blank before each line.
if has sed; then
    indented() { sed 's/^/ /'; }
else
    indented() { while IFS= read -r line; do printf ' %s\n' "$line"; done; }
fi
# Ends what may wait for ever.
if has timeout; then
    limited() { timeout 10 "$@"; }
else
    limited() { "$@"; }
fi

# The section of this name: what the further words print, or why not.
section() {
    printf '@%s\n' "$1"
    shift
    { { "$@" < /dev/null 2> /dev/null || printf '\n!%s\n' "$?"; } | bounded "$most"; echo; } | indented
}
answered() {
    whole=$most
    most=$most_answered
    section "$@"
    most=$whole
}
file() { [ -r "$1" ] && cat "$1"; }

# What FRR answers to a command; where it refuses, the status and the first line that it says of that.
asked() {
    { words=$(limited vtysh -c "$1" 2>&1 >&3 3>&-) && return 0; } 3>&1
    status=$?
    words=${words%%
*}
    printf '\n!%s\n' "${words:+status }$status${words:+: $words}"
}
