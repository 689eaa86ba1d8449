#!/usr/bin/env zsh
# Completes the words of each line of standard input, `words -> completions`, by the file that it is
# handed, in an interactive zsh behind a terminal of its own, and writes the line with what came out, sorted.
# Usage: completion.zsh FILE
set -u
zmodload zsh/zpty || exit 1
room=$(mktemp -d) || exit 1
trap 'rm -rf $room' EXIT
ln -s $1:A $room/_mcaudit
mkfifo $room/told
# The shell beneath tells each match that is found, and then an empty line.
cat > $room/start <<'BELOW'
PROMPT=
fpath=(${0:h} $fpath)
autoload -U compinit
compinit -u -D
bindkey '^I' complete-word
bindkey '^M' undefined
exec {told}> ${0:h}/told
compadd() {
    if [[ ${@[1,(i)(-|--)]} != *-(O|A|D)\ * ]]; then
        local -a found
        builtin compadd -A found "$@"
        (( ! $#found )) || print -rlu $told -- $found
    fi
    builtin compadd "$@"
}
# zsh forgets the functions of this list as it calls them
tell_end() {
    print -u $told
    comppostfuncs=(tell_end)
}
comppostfuncs=(tell_end)
BELOW
zpty below zsh -f -i
zpty -w below "0=$room/start; source $room/start"
exec {told}< $room/told
while IFS= read -r line; do
    words=${line%% ->*}
    zpty -w -n below $'\C-u'$words$'\t'
    found=()
    while IFS= read -r -t 20 -u $told match && [[ -n $match ]]; do found+=($match); done
    while zpty -r -t below drained; do :; done
    print -r -- "$words -> ${(j: :)${(@ou)found}}"
done
zpty -d below
