# Completion of cbfsseal for bash: options, and files for its image.

_cbfsseal() {
    local cur=${COMP_WORDS[COMP_CWORD]}
    COMPREPLY=()
    if [[ $cur == -* ]]; then
        mapfile -t COMPREPLY < <(compgen -W "-v --allow-unhashed --help --version" -- "$cur")
        return 0
    fi
    compopt -o filenames
    mapfile -t COMPREPLY < <(compgen -f -- "$cur")
}

complete -F _cbfsseal cbfsseal
