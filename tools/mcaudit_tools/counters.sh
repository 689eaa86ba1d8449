# One reading of a router's counters for each line of its standard input, printed for `mcaudit-premises --watch`. It
# reads and changes nothing; sh and cat are enough. Each section begins with a line `@NAME`. The variable word is set by
# whoever sends this, and waits for the line `ready`, which says which router it is, before it sends another one, since
# a shell may read ahead.
# shellcheck shell=sh
: "${word:=}"
LC_ALL=C
export LC_ALL
echo "$word ready $(cat /proc/sys/kernel/random/boot_id 2> /dev/null) $(readlink /proc/self/ns/net 2> /dev/null)"
while IFS= read -r number; do
    for name in ip_mr_cache ip_mr_vif snmp netstat dev; do
        echo "@$name"
        cat "/proc/net/$name" 2> /dev/null
    done
    echo "$word end $number"
done
