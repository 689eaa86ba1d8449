#!/bin/sh
# Shows the whole way from captured files to what mcaudit says of them, on copies of two folders beside this
# script: what an audit says of the second, whose domain has a fault, and of the same with the fault fixed; the
# certificate and the verdict of the first; and the travel that shows the fault. Usage: whole_way.sh [PROGRAM]
#
# The folder steps/ has of each step its words and what it must write; a step that reads gets what the step
# before it must write. Without a program the source runs unproved, by `rt try`, which builds it once for all
# steps: that takes two or three minutes, and not the time of all proofs.

examples=$(cd "$(dirname "$0")" && pwd) || exit 1
program=
if [ $# -gt 0 ]; then
    program=$(cd "$(dirname "$1")" && pwd)/$(basename "$1") || exit 1
fi
scratch=$(mktemp -d) || exit 1
trap 'rm -rf "$scratch"' EXIT
cp -R "$examples/network" "$examples/second-router" "$examples/steps" "$scratch" || exit 1
cd "$scratch" || exit 1
cp -R second-router fixed || exit 1
sed 's/ 1:1$//' second-router/cache-r2 > fixed/cache-r2
cp steps/make-network.stdout network/certificate

# Each step, its standard input, and its status.
statuses='
audit-second-router - 1
audit-fixed - 0
pack-network - 0
make-network pack-network 0
pack-certified - 0
check-certified pack-certified 0
pack-second-router - 0
replay-second-router pack-second-router 1
'

fail() {
    echo "$*" >&2
    exit 1
}

# Runs the program on each step.
run_program() {
    echo "$statuses" | while read -r step _ _; do
        [ -n "$step" ] || continue
        set --
        while IFS= read -r word; do set -- "$@" "$word"; done < "steps/$step.args"
        "$program" "$@" < "steps/$step" > written
        echo "case=$step run=ended status=$?"
        cmp -s written "steps/$step.stdout" || echo "case=$step: wrote something else than it must"
    done > said
}

# Runs the source on each step, unproved, with copies of the files of all folders.
run_source() {
    set --
    for file in network/* second-router/* fixed/*; do
        set -- "$@" --data "$file=$scratch/$file"
    done
    (cd "$examples/../crates/mcaudit" && rt try --cases "$scratch/steps" "$@") > said 2>&1 ||
        { cat said >&2; fail "the source did not run as it must"; }
}

# Prints a command, and what its step wrote.
show() {
    echo "\$ $1"
    [ $# -eq 1 ] || cat "steps/$2.stdout"
}

echo "$statuses" | while read -r step before _; do
    [ -n "$step" ] || continue
    if [ "$before" = - ]; then : > "steps/$step"; else cp "steps/$before.stdout" "steps/$step"; fi
done
if [ -n "$program" ]; then
    run_program
else
    echo "(no program is built, so its source runs unproved, in two or three minutes; \`make\` proves and builds it)"
    run_source
fi
echo "$statuses" | while read -r step _ wanted; do
    [ -n "$step" ] || continue
    grep -q "^case=$step run=ended status=$wanted\( \|$\)" said || fail "$step: its status is not $wanted"
    ! grep "^case=$step: wrote" said >&2 || exit 1
done || exit 1

show "mcaudit audit second-router --travel" audit-second-router
show "cp -R second-router fixed && sed -i 's/ 1:1$//' fixed/cache-r2   # eth1 out of r2's entry, as the line fix says"
show "mcaudit audit fixed" audit-fixed
show "mcaudit pack network | mcaudit make | tee network/certificate" make-network
show "mcaudit pack network --certificate | mcaudit check" check-certified
show "mcaudit pack second-router | mcaudit replay 1 255" replay-second-router
