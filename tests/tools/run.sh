#!/bin/sh
# Tries the tools: their cases by tests/cases.py, and besides what no case can say. The words of the file completion, and
# those that help_words.sh takes from the help of the program and of its tools, are completed by bash, zsh and fish
# alike. All tools are to tell one version and to be installed, and shellcheck reads all shell of the tools
# and of their tests. Their manual pages are those that packaging/man_pages.py writes. page.py looks at the
# pages that mcaudit-page makes, rates.py at the words of a rate, basis.py at the line that tells what a verdict rests
# on, and formats.py at audits of both formats. What it needs that is not there is named, and is a failure; but promtool
# reads the files for Prometheus, and systemd-analyze the units, only where they are. hostile.py tries what hosts, routers and names may do to the tools, and loops.py ends
# them at random moments, fills their disks and forges answers, and prints its seed; upgrading.py holds the guide to
# what it says of 0.2. flake8, pylint and mypy read their Python, as that of 3.9.
# Usage: run.sh [CASE ...], as collect/unreachable. So many cases run at once as JOBS says.
#
# The last line counts: N passed, M failed. The status is 0 if none failed and one was run.

here=$(cd "$(dirname "$0")" && pwd) || exit 1
tools=$(cd "$here/../../tools" && pwd) || exit 1
crates=$(cd "$here/../../crates" && pwd) || exit 1
scratch=$(mktemp -d) || exit 1
trap 'rm -rf "$scratch"' EXIT
trap 'exit 1' HUP INT TERM
mkdir "$scratch/results"
PROGRAM=${PROGRAM:-$tools/../crates/mcaudit/out/mcaudit}
TOOLS=$tools
export PROGRAM TOOLS

# Writes the words of the file completion, and those of the help, which all shells complete.
write_words() {
    LC_ALL=C sh "$here/help_words.sh" "$PROGRAM" "$tools" && cat "$here/completion"
}

# Completes these words in a folder that has one folder and one file, by the shell that the further words run: what
# comes out is the same for all.
complete_words() {
    mkdir -p "$1/folder" && cd "$1" && : > file || return 1
    LC_ALL=C
    export LC_ALL
    "$@" -n "$tools/mcaudit.$1" || return 1
    [ -s ../words ] || return 1
    "$@" "$here/completion.$1" "$tools/mcaudit.$1" < ../words > ../"$1.completed"
    diff ../words ../"$1.completed"
}

# Reads all shell with shellcheck.
check_shell() {
    cd "$here/../.." || return 1
    # shellcheck disable=SC2046 # names without spaces
    shellcheck -x $(grep -slE '^#!/bin/(ba)?sh' tools/* tests/tools/*.sh tests/tools/commands/* tests/lab/*.sh \
        tests/*.sh) tools/mcaudit_tools/*.sh tools/mcaudit.bash tests/tools/completion.bash
}

# Reads all Python of the tools, and how `make` proves, with pylint: what may be an error, and what it warns of.
check_python() {
    PYTHONPATH=$tools pylint --disable=all --enable=E,W --disable=E3102,E1124,W0621 "$tools/mcaudit_tools" "$crates"/*.py
}

# Reads all Python of the tools, of the runner of their cases and of how `make` proves with mypy, as that of 3.9.
check_types() {
    MYPYPATH=$tools
    export MYPYPATH
    mypy --python-version 3.9 --cache-dir "$scratch/mypy" "$tools/mcaudit_tools" "$here/../cases.py" \
        "$crates"/*.py || return 1
    mypy --python-version 3.9 --cache-dir "$scratch/mypy" --scripts-are-modules "$tools"/mcaudit-*
}

# Asks all tools for their version: it is one.
compare_versions() {
    for tool in "$tools"/mcaudit-*; do
        "$tool" --version
    done > versions || return 1
    sed 's/^mcaudit-[a-z]* //' versions | sort -u > version
    cat versions
    [ "$(wc -l < version)" -eq 1 ] && grep -qx '[0-9.]*' version
}

# Asks for a package that can't be had, where apt-get installs nothing: it is named, and a failure.
want_package() {
    mkdir -p wanting/tests wanting/commands && cp "$here/../packages.sh" wanting/tests || return 1
    echo 'no-such-package no-such-command gate' > wanting/packages
    printf '#!/bin/sh\nexit 100\n' > wanting/commands/apt-get && chmod 755 wanting/commands/apt-get
    PATH=$PWD/wanting/commands:$PATH sh wanting/tests/packages.sh gate > wanting/said 2>&1 && return 1
    cat wanting/said
    grep -qx 'the gate needs these packages, which are not there: no-such-package' wanting/said &&
        sh wanting/tests/packages.sh lab
}

# Installs all, with another file in the program's place: each tool is there with its completions, systemd, where it
# is, takes the units and their user, and nothing is left once all is taken away.
install_all() {
    place=$PWD/installed
    make -s -C "$here/../.." install PROGRAM="$here/commands/mcaudit" SOURCES= PREFIX="$place" || return 1
    for tool in "$tools"/mcaudit-*; do
        [ -x "$place/bin/${tool##*/}" ] || { echo "${tool##*/} is not installed"; return 1; }
        for file in bash-completion/completions/"${tool##*/}" fish/vendor_completions.d/"${tool##*/}.fish"; do
            [ -s "$place/share/$file" ] || { echo "$file is not installed"; return 1; }
        done
        cmp "$here/../../docs/${tool##*/}.1" "$place/share/man/man1/${tool##*/}.1" || return 1
    done
    cmp "$tools/mcaudit.zsh" "$place/share/zsh/site-functions/_mcaudit" || return 1
    [ -z "$systemd" ] || judge_units "$place" || return 1
    make -s -C "$here/../.." uninstall PREFIX="$place" || return 1
    find "$place" ! -type d > left
    cat left
    [ ! -s left ]
}

# Writes the tools' manual pages anew: they are those of docs/, and each has all options that the help has, and no others.
compare_pages() {
    mkdir pages && "$python" "$here/../../packaging/man_pages.py" pages || return 1
    for tool in "$tools"/mcaudit-*; do
        page=${tool##*/}.1
        diff "$here/../../docs/$page" "pages/$page" || return 1
        "$tool" --help | sed -n 's/^ \{2,6\}\(-[-a-z, ]*[-a-z]\).*/\1/p' | grep -o -e '--*[a-z][-a-z]*' > options
        [ "$page" != mcaudit-site.1 ] || { "$tool" init --help && "$tool" lans --help; } |
            sed -n 's/^ \{2,6\}\(-[-a-z, ]*[-a-z]\).*/\1/p' | grep -o -e '--*[a-z][-a-z]*' >> options
        sed -n '/^\\fB/s/\\-/-/gp' "pages/$page" | grep -o 'fB-[-a-z]*' | cut -c 3- | sort -u > told
        sort -u options | diff - told || return 1
    done
}

# Has systemd take the units that are installed below this place, and their user.
judge_units() {
    systemd-analyze verify --man=no "$1"/lib/systemd/system/* || return 1
    [ "$(id -u)" -eq 0 ] || return 0
    mkdir "$1/etc" && systemd-sysusers --root="$1" - < "$1/lib/sysusers.d/mcaudit.conf" || return 1
    grep '^mcaudit:.*:/var/lib/mcaudit:/usr/sbin/nologin$' "$1/etc/passwd" && rm -R "${1:?}/etc"
}

# Runs the further words as a case of this name, which needs the command $2.
run_apart() {
    name=$1
    command=$2
    shift 2
    if ! command -v "$command" > /dev/null; then
        echo "failed: $name, since there is no $command"
    elif (cd "$scratch" && "$@") > "$scratch/difference" 2>&1; then
        echo passed
    else
        echo "failed: $name"
        cat "$scratch/difference"
    fi > "$scratch/results/$name"
}

python=$(python3 -c 'import sys; print(sys.executable)')
systemd=$(command -v systemd-analyze)
"$python" "$here/../cases.py" tools ${JOBS:+--jobs "$JOBS"} "$@" > "$scratch/cases" 2>&1 &
if [ $# -eq 0 ]; then
    # (what python3 is on the PATH may be a script that looks for the interpreter at each start of a tool)
    mkdir "$scratch/bin" && ln -s "$python" "$scratch/bin/python3" && PATH=$scratch/bin:$PATH
    write_words > "$scratch/words" || rm "$scratch/words"
    run_apart install make install_all
    run_apart completion-bash bash complete_words bash
    run_apart completion-zsh zsh complete_words zsh -f
    run_apart completion-fish fish complete_words fish --no-config
    run_apart versions python3 compare_versions
    run_apart manual python3 compare_pages
    run_apart packages sh want_package
    run_apart shellcheck shellcheck check_shell
    run_apart pages dot "$python" "$here/page.py"
    run_apart rates python3 "$python" "$here/rates.py"
    run_apart basis python3 "$python" "$here/basis.py"
    run_apart formats python3 "$python" "$here/formats.py"
    run_apart hostile dot "$python" "$here/hostile.py"
    run_apart loops dot "$python" "$here/loops.py"
    run_apart upgrading make "$python" "$here/upgrading.py"
    run_apart flake8 flake8 flake8 --max-line-length 120 "$tools" "$tools"/mcaudit-* "$here"/hostile.py "$here"/loops.py \
        "$here"/formats.py "$here"/packets.py "$here"/rates.py "$here"/basis.py "$here"/upgrading.py "$here"/commands \
        "$here"/../cases.py "$here"/../case_files.py "$here"/../ended.py "$here"/../prove/run.py "$here"/../prove/rt "$crates"/*.py
    run_apart pylint pylint check_python
    run_apart mypy mypy check_types
    run_apart script node node --check "$tools/mcaudit_tools/page/page.js"
fi
command -v promtool > /dev/null || echo 'not tried: promtool, which is not there (sh tests/packages.sh monitor)'
[ -n "$systemd" ] || echo 'not tried: the units of systemd, which is not there'
[ -x "$PROGRAM" ] || echo 'failed: mcaudit, which is not built' > "$scratch/results/program"
wait
sed '$d' "$scratch/cases"
cat "$scratch"/results/* 2> /dev/null | grep -v '^passed$'
counts=$(sed -n '$s/^\([0-9]*\) passed, \([0-9]*\) failed$/\1 \2/p' "$scratch/cases")
[ -n "$counts" ] || { tail -n 1 "$scratch/cases"; counts='0 1'; }
passed=$((${counts% *} + $(cat "$scratch"/results/* 2> /dev/null | grep -c '^passed$')))
failed=$((${counts#* } + $(cat "$scratch"/results/* 2> /dev/null | grep -c '^failed: ')))
echo "$passed passed, $failed failed"
[ "$failed" -eq 0 ] && [ "$passed" -gt 0 ]
