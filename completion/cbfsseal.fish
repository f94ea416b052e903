# Completion of cbfsseal for fish: options, and files for its image.

complete -c cbfsseal -s v -d "print both digests"
complete -c cbfsseal -l allow-unhashed -d "accept components without a digest"
complete -c cbfsseal -l help -d "print the help"
complete -c cbfsseal -l version -d "print the version"
