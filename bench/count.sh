#!/bin/sh
# Counts the lines of the house: code, definitions and proofs, by crate and in all, and those of the tools' package.
#
#   sh bench/count.sh [FOLDER]     FOLDER is a tree of the repository, if not this one
#
# The crates of tests are left out: what they hold is neither sold nor proved of anything.
cd "${1:-$(dirname "$0")/..}" || exit 1

# lines ENDING FOLDER..: how many lines the files below the folders have that end so
lines() {
	ending=$1
	shift
	find "$@" -name out -prune -o -type f -name "*$ending" -exec cat {} + 2>/dev/null | wc -l
}

printf '%-14s %8s %12s %8s\n' crate code definitions proofs
code=0 definitions=0 proofs=0
for crate in crates/*/; do
	name=$(basename "$crate")
	case $name in mc_tests_*) continue ;; esac
	own_code=$(lines .rt "$crate/src") own_definitions=$(lines .antt "$crate/specs") own_proofs=$(lines .antt "$crate/proofs")
	printf '%-14s %8s %12s %8s\n' "$name" "$own_code" "$own_definitions" "$own_proofs"
	code=$((code + own_code)) definitions=$((definitions + own_definitions)) proofs=$((proofs + own_proofs))
done
printf '%-14s %8s %12s %8s\n' all "$code" "$definitions" "$proofs"
if [ -d tools/mcaudit_tools ]; then
	echo "tools: $(cat tools/mcaudit-* $(find tools/mcaudit_tools -name '*.py') | wc -l) lines of Python"
fi
