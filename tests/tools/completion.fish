#!/usr/bin/env fish
# Completes the words of each line of standard input, `words -> completions`, by the file that it is
# handed, and writes the line with what came out, sorted. Usage: completion.fish FILE
source $argv[1]; or exit 1
while read -d \n -l line
    set -l words (string replace -r ' ->.*' '' -- $line)
    set -l found (complete -C $words | string replace -r '/?(\t.*)?$' '' | sort -u)
    echo "$words -> $found"
end
