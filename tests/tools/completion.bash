#!/bin/bash
# Completes the words of each line of standard input, `words -> completions`, by the file that it is
# handed, and writes the line with what came out, sorted. Options for an empty word are left out, since the
# other shells offer none there. Usage: completion.bash FILE

# shellcheck source=/dev/null
source "$1"
while IFS= read -r line; do
    words=${line%% ->*}
    IFS=' ' read -r -a COMP_WORDS <<< "$words"
    [[ $words != *' ' ]] || COMP_WORDS+=('')
    COMP_CWORD=$((${#COMP_WORDS[@]} - 1))
    COMPREPLY=()
    "$(complete -p "${COMP_WORDS[0]}" | sed 's/.*-F \([^ ]*\) .*/\1/')"
    [ -n "${COMP_WORDS[COMP_CWORD]}" ] || COMPREPLY=("${COMPREPLY[@]/#-*/}")
    echo "$words -> $(printf '%s\n' "${COMPREPLY[@]}" | sed '/^$/d' | sort | paste -sd ' ')"
done
