#!/usr/bin/fish --no-config
# complete.fish FOLDER LINE: what fish offers for the last word of the line, with the completions of the folder, each in a
# line of its own, without what describes it.
for completion in $argv[1]/*.fish
    source $completion
end
complete -C $argv[2] | string replace -r '\t.*' ''; or true
