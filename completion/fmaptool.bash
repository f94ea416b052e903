# Completion of fmaptool for bash: its two words are files.

_fmaptool() {
    COMPREPLY=()
    [ "$COMP_CWORD" -gt 2 ] || compopt -o default
}

complete -F _fmaptool fmaptool
