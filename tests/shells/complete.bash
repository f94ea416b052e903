#!/bin/bash
# complete.bash FOLDER LINE: what bash offers for the last word of the line, with the completions of the folder, each in
# a line of its own and without what quotes it.
for completion in "$1"/*.bash; do
    . "$completion"
done
COMP_LINE=$2
COMP_POINT=${#COMP_LINE}
# (bash parts words at blanks, but at those behind a backslash, and at some marks, which are words too)
mapfile -t COMP_WORDS < <(sed -E 's/\\ /\x01/g; s/[:=]/ & /g; s/([:=]) $/\1/; s/ /\n/g; s/\x01/\\ /g' <<< "$COMP_LINE" | sed '$!{/^$/d}')
COMP_CWORD=$((${#COMP_WORDS[@]} - 1))
files=
compopt() { [[ $* != "-o default" ]] || files=yes; }
"_${COMP_WORDS[0]##*/}"
[ -z "$files" ] || mapfile -t COMPREPLY < <(compgen -f -- "${COMP_WORDS[COMP_CWORD]}")
for reply in "${COMPREPLY[@]}"; do
    eval "printf '%s\n' $reply"
done
