# Completion of fmaptool for fish: a descriptor, and the file for its table.

complete -c fmaptool -f
complete -c fmaptool -n 'test (count (commandline -opc)) -lt 3' -F
