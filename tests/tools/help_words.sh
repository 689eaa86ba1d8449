#!/bin/sh
# Writes the lines `words -> completions` that follow from the help of the program and of its tools: all
# commands, and all options of each. Left out are -h and, of the program, --help. Usage: help_words.sh PROGRAM TOOLS
program=$1
tools=$2

# The options of the help on standard input, on one line: those that have a line of their own.
print_options() {
    sed -n -e 's/^ \{2,6\}\(-h, \)\{0,1\}\(-[-a-z]*\).*/\2/p' -e 's/^mcaudit \(--[a-z]*\) .*/\1/p' |
        sort -u | paste -sd ' ' -
}

# The help of the program with these words, which it writes as it does where the words are wrong.
print_help() {
    "$program" "$@" --help 2>&1 | sed '/--help/d'
}

# The commands of the help on standard input, a line each: those below the line that the pattern fits, and
# those of the program that have a line of their own.
print_commands() {
    sed -n -e "/$1/,/^\$/s/^  *\\([a-z][a-z]*\\)  .*/\\1/p" -e 's/^mcaudit \([a-z][a-z]*\) .*/\1/p' | sort
}

commands=$(print_help | print_commands '^Commands:')
# shellcheck disable=SC2086 # a word each
echo mcaudit '' '->' $commands
echo "mcaudit - -> $(print_help | print_options)"
for command in $commands; do
    case $command in
        audit | pack) words="$command folder" ;;
        replay | wants) words="$command 1 3" ;;
        *) words=$command ;;
    esac
    echo "mcaudit $words - -> $(print_help "$command" | print_options)"
done
for tool in "$tools"/mcaudit-*; do
    echo "${tool##*/} - -> $("$tool" --help | print_options)"
done
commands=$("$tools/mcaudit-site" --help | print_commands '^  COMMAND')
# shellcheck disable=SC2086 # a word each
echo mcaudit-site '' '->' $commands
for command in $commands; do
    echo "mcaudit-site $command - -> $("$tools/mcaudit-site" "$command" --help | print_options)"
done
