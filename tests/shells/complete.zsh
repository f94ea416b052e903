#!/bin/zsh -f
# complete.zsh FOLDER LINE DUMP: what zsh offers for the last word of the line, with the completions of the folder, each
# in a line of its own and without what quotes it. It asks a zsh that has a terminal of its own, where what is offered is
# printed too; that one keeps a list of all completions in the file DUMP.
zmodload zsh/zpty || exit
() {
    zpty child zsh -f -i
    zpty -w child "source $1"
    local text
    while zpty -r child text; do
        [[ $text != *begun* ]] || break
    done
    zpty -w -n child "$2"$'\t'
    while zpty -r child text; do
        text=${text//[$'\r\n']/}
        [[ $text != *ended* ]] || break
        [[ $text != *offered:* ]] || print -r -- "${(Q)text#*offered:}"
    done
    zpty -d child
} =(<<< "
PROMPT=
fpath=(${(q)1} \$fpath)
autoload -U compinit
compinit -u -d ${(q)${3:a}}
bindkey '^I' complete-word
zstyle ':completion:*' insert-tab false
compadd() {
    if [[ \${@[1,(i)(-|--)]} != *-[OAD]\\ * ]]; then
        local -a offered
        builtin compadd -A offered \"\$@\"
        local each
        for each in \"\${offered[@]}\"; do print -r -- \"offered:\$each\"; done
    fi
    builtin compadd \"\$@\"
}
finish() { print ended; exit }
comppostfuncs=(finish)
print begun
") "$2"
