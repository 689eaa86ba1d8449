#!/bin/sh
# Looks whether each thing of a domain, a run and a flow is still written once, and each thing of the operators' tools.
#
#   sh tests/house/check.sh [FOLDER]     at the top of the repository; FOLDER is where the edits that must fail are, as
#                                        FOLDER/mc_run/must-fail, if not in crates
#
# It reads the sources alone, so it takes seconds. A line a rule says how often a thing is there, and how often it may be; the
# last line counts, `N passed, M failed`, and the status is 0 if none failed.
set -u
passed=0 failed=0

# rule WHAT LEAST..MOST COUNT: WHAT is there COUNT times, and may be there LEAST to MOST times. A rule that counts what is
# there on purpose has a LEAST of 1 or more, so that a new name can't make it blind
rule() {
	if [ "$3" -gt "${2#*..}" ]; then
		failed=$((failed + 1)) result=TOO_OFTEN
	elif [ "$3" -lt "${2%..*}" ]; then
		failed=$((failed + 1)) result=TOO_SELDOM
	else
		passed=$((passed + 1)) result=well
	fi
	printf '%s: %s: %s, of %s\n' "$result" "$1" "$3" "$2"
}

# lines PATTERN PATH..: how many lines below the paths fit an extended regular expression
lines() {
	pattern=$1
	shift
	grep -rhE -- "$pattern" "$@" 2>/dev/null | wc -l
}

# small MOST PATH..: how many files of definitions below the paths, but for a crate's list of them, have at most MOST lines
small() {
	most=$1
	shift
	find "$@" -name '*.antt' ! -name Lib.antt -exec wc -l {} \; | awk -v most="$most" '$1 <= most { count++ } END { print count + 0 }'
}

# unnamed NAME..: how many edits of these crates name no clause that refuses them
unnamed() {
	for name; do
		find "$edits/$name/must-fail" -name '*.edit' -exec grep -L '^clause: ' {} +
	done | wc -l
}

# edited NAME..: how many edits these crates have
edited() {
	for name; do
		find "$edits/$name/must-fail" -name '*.edit'
	done | wc -l
}

edits=${1:-crates}
specs=$(echo crates/*/specs) proofs=$(echo crates/*/proofs)
# the code of the rooms, without what only tests them; the keys of a certificate and of an audit's answers are words of JSON
sources=$(ls -d crates/*/src | grep -v /mc_tests_)
head='^(abbrev |unfoldable )?(pub )?'

# --- how crates speak of steps, faults and failures ---
rule 'a call that gives what a definition says (Gives, by cases)' 1..1 "$(lines '^Gives .*\(Err ' $specs)"
rule 'a step after another (>>=)' 1..1 "$(lines "${head}◌>>=◌ :" $specs)"
rule "another crate's fault as ours (map_fault)" 1..1 "$(lines "${head}(map_fault|judged) :" $specs)"
rule 'a step that was taken (bind_ok)' 1..1 "$(lines '^ *(pub )?bind_ok :' $proofs)"
rule 'the octets of a number in an order' 1..1 "$(lines "${head}octets_in_order :" $specs)"
rule 'a count of failures by its own cases' 2..2 "$(lines "${head}failures_after_[a-z_]+ :" $specs)"

# --- the parts of a domain ---
# (one more is how a vif is printed that has no device)
rule 'the kind of a part in code ("vif")' 2..2 "$(lines '"vif[/"-]' $(echo $sources | tr " " "\n" | grep -v -e mc_cert -e mc_lines -e mc_json))"
rule 'the kind of a part in definitions (codes "vif")' 2..2 "$(lines 'codes "vif[/"-]' $(ls -d crates/*/specs | grep -v -e mc_cert -e mc_lines -e mc_json))"
rule 'the most bytes of a part (MAX_PART)' 1..1 "$(lines 'const MAX_PART:' $sources)"
rule 'a file taken as a part (FilePart)' 1..1 "$(lines 'struct FilePart' $sources)"

# --- a flow, and a run ---
rule 'a view of a flow' 1..1 "$(lines 'struct (FlowView|FlowRows|FlowNet|FlowTables|Followed)' $sources)"
rule 'an item for each LAN, in a vector' 1..1 "$(lines ': Vec<Option<' $sources)"
rule 'the text and the answer of a run' 1..1 "$(lines 'struct (RunOutput|RunText|Verdicts) ' $sources)"
# (words, since a line holds more or fewer of them as names are short or long; those of comments aside)
rule 'words that prove what the runs answer' 400..665 "$(cat $(find crates/mc_commands/proofs crates/mc_run/proofs -path "*/run_*/Answers.antt") | grep -v '^ *--' | wc -w)"

# --- names ---
rule 'identifiers that hold a word of several meanings' 0..0 "$(python3 tests/house/words.py | wc -l)"
rule 'identifiers that were looked at' 9000..99999 "$(python3 tests/house/words.py count)"
rule "a LAN's name by its number, and a router's" 2..2 "$(lines "${head}(lan_name|router_name) :" $specs)"
rule "a word with a LAN's name, and with a router and its vif" 2..2 "$(lines 'struct WordAt(Lan|Vif)' $sources)"
rule 'facts by the name IsKept' 0..0 "$(lines "${head}(record )?IsKept" $specs)"
rule 'files of definitions of at most 15 lines' 1..5 "$(small 15 $specs)"
rule 'lemmas and definitions that nothing leads to' 0..0 "$(python3 tests/house/uncited.py | wc -l)"

# --- what stands twice ---
# (windows of 12 lines that are alike but for names, numbers and texts; these counts only fall)
rule 'windows of code that stand again' 1..92 "$(python3 tests/house/duplicates.py code)"
rule 'windows of definitions that stand again' 0..7 "$(python3 tests/house/duplicates.py definitions)"
rule 'windows of proofs that stand again' 1..16 "$(python3 tests/house/duplicates.py proofs)"
rule 'windows of the tools that stand again' 0..0 "$(python3 tests/house/duplicates.py tools)"

# --- edits that must fail ---
# (an edit that names a clause is refused by that clause alone, and not by a proof that no longer fits)
first_six='mc_run mc_commands mc_replay mc_forward mc_check mc_maker'
others=$(cd "$edits" && ls -d */must-fail | sed 's|/must-fail||' | grep -vxF "$(echo $first_six | tr ' ' '\n')")
rule 'of these six crates those without edits' 0..0 "$(for name in $first_six; do [ "$(edited "$name")" -gt 0 ] || echo "$name"; done | wc -l)"
rule 'edits of the runs, the replayer, the checker and the maker that name no clause' 0..0 "$(unnamed $first_six)"
rule 'edits of the other crates that name no clause' 0.."$(($(edited $others) / 5))" "$(unnamed $others)"

# --- the operators' tools ---
# (mcaudit-query needs nothing beside itself, since it is sent to routers: it has its own arguments and checksum)
tools=$(find tools/mcaudit_tools -name '*.py')
rule 'a file written beside its place, and renamed' 1..1 "$(lines 'tempfile\.mkstemp\(' $tools)"
rule 'what is renamed over another: such a file, and the link to a set' 2..2 "$(lines 'os\.replace\(' $tools)"
rule 'how a program is run under limits' 1..1 "$(lines 'subprocess\.(Popen|run|call|check_)|os\.(popen|system|fork)' $tools)"
rule 'what a tool becomes: the shell on a router' 1..1 "$(lines 'os\.(exec|posix_spawn)' $tools)"
rule 'how a session of programs is ended' 1..1 "$(lines 'os\.killpg\(' $tools)"
# (an interrupt before any is heeded is start.py's, which a Python reads that is too old for the others)
rule 'signals: an interrupt before any is heeded, those heeded, those of an end, that of a closed pipe, and of a limit of time' 6..6 "$(lines 'signal\.signal\(' $tools)"
rule 'a lock: of a site, and of a scratch folder' 2..2 "$(lines 'fcntl\.flock\(' $tools)"
rule 'how a file is opened that may be no regular one' 1..1 "$(lines 'O_RDONLY \| os\.O_NONBLOCK' $tools)"
rule "a reader of the audit's JSON, and one of plans'" 2..2 "$(lines '\["format"\]' $tools)"
rule "readers of JSON: an audit's, plans', that of files which the tools keep, dot's, ip's and that of facts" 6..6 "$(lines 'json\.loads?\(' $tools)"
rule 'a reader of TOML' 1..1 "$(lines 'tomllib\.loads?\(' $tools)"
rule 'a decoder of hexadecimal digits' 1..1 "$(lines 'fromhex|unhexlify|b16decode' $tools)"
rule "a reader of arguments: all tools', and mcaudit-query's" 2..2 "$(lines '\(argparse\.ArgumentParser\)' tools)"
rule "the Internet checksum: all tools', and mcaudit-query's" 2..2 "$(lines 'while total >> 16' tools)"
rule "text of others made clean" 1..1 "$(lines '" " <= it <= "~" and' $tools)"
rule 'a failure with its status' 2..2 "$(lines '^class Failed\(' tools)"
rule 'blocks of code in two functions: the checksum' 1..1 "$(python3 tests/house/tools.py copies | wc -l)"
rule 'lines of more than 120 characters below tools/' 0..0 "$(python3 tests/house/tools.py lines | wc -l)"
rule 'functions of more than 40 lines' 0..0 "$(python3 tests/house/tools.py functions | wc -l)"
rule 'modules of more than 340 lines' 0..0 "$(python3 tests/house/tools.py modules | wc -l)"

printf '%s passed, %s failed\n' "$passed" "$failed"
[ "$failed" -eq 0 ] && [ "$passed" -gt 0 ]
