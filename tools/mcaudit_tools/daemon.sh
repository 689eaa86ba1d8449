# What FRR's pimd believes of the hosts on each interface, for `--from-daemon`: it reads and changes nothing. The
# variable word is set by whoever sends this, behind sections.sh. No line begins with echo: a key that runs the guide's
# command alone takes the word of an answer from such a line, which is above.
# shellcheck shell=sh
: "${word:=}"
printf '%s facts\n' "$word"
if has vtysh; then
    answered frr_igmp asked 'show ip igmp interface json'
    answered frr_igmp_detail asked 'show ip igmp interface detail json'
    answered frr_groups asked 'show ip igmp groups json'
    answered frr_sources asked 'show ip igmp sources json'
else
    section frr_igmp echo '!no vtysh'
fi
printf '@end\n%s end\n' "$word"
