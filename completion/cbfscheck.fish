# Completion of cbfscheck for fish: options, files for its two images and for @FILE, and the areas of
# the first image before the cursor, as the cbfstool in the same folder lists them. It offers no
# areas if the image is read-only, or if another command locks it for longer than a second. (fish
# does not tell a completion which words follow the cursor.)
#
# Names come from the image, and must never become a part of a command: fish quotes what `complete`
# offers.

# Prints the path that a word of the line stands for; `commandline -o` has removed its quotes.
function __cbfscheck_path
    string match -q '~/*' -- $argv[1]; and printf '%s/' $HOME
    string replace -r '^~/' '' -- $argv[1]
end

# Returns whether no word before the cursor is this option, except the last one if its value is
# still to come.
function __cbfscheck_lacks
    set -l words (commandline -opc)
    contains -- $words[-1] -r --keep --need; and set -e words[-1]
    not string match -q -r -- "^$argv[1]\$" $words[2..]
end

# Prints the images of the words of a line, without options, their values and option files. Returns
# whether no value is still to come.
function __cbfscheck_images
    set -l text no
    for word in $argv[2..]
        if test $text = yes
            set text no
            continue
        end
        switch $word
            case -r --keep --need
                set text yes
            case '-*' '@*'
            case '*'
                printf '%s\n' $word
        end
    end
    test $text = no
end

# Returns whether an image may follow: fewer than two precede the cursor, and no value of an option
# is still to come.
function __cbfscheck_wants_image
    set -l images (__cbfscheck_images (commandline -opc)); or return 1
    test (count $images) -lt 2
end

# Prints the areas of the first image, except names that the regular expression matches.
function __cbfscheck_areas
    set -l words (commandline -opc)
    set -l tool cbfstool
    string match -q '*/*' -- $words[1]; and set tool (__cbfscheck_path $words[1] | string replace -r '/[^/]*$' /cbfstool)
    set -l images (__cbfscheck_images $words)
    set -q images[1]; or return
    set -l rows (timeout 1 $tool (__cbfscheck_path $images[1]) layout 2> /dev/null)
    string match -q -r '^fmap\t' -- $rows[1]; or return
    # (the earlier names of the list, without the option in the same word)
    set -l before (string unescape -- (string replace -r '^(-r|--keep=|--need=)' '' -- (commandline -ct) | string match -r '^.*,'))
    # (fish can offer neither an empty name nor one with a control character, such as a line feed)
    for shown in (printf '%s\n' $rows[2..] | cut -f 1)
        string match -q -r -- '^$|\\\\x([01].|7f)' $shown; and continue
        string match -q -r -- $argv[1] $shown; or printf '%s%b\n' "$before" $shown
    end
end

# Prints the same for --need, where the name of a component follows a colon.
function __cbfscheck_needs
    string match -q -r ':[^,]*$' -- (commandline -ct); and return
    for area in (__cbfscheck_areas '[,:]')
        printf '%s:\n' $area
    end
end

# Prints the files of the argument @FILE at the cursor.
function __cbfscheck_option_files
    string replace -r '^' '@' -- (__fish_complete_path (string replace -r '^@' '' -- (commandline -ct)))
end

complete -c cbfscheck -f
complete -c cbfscheck -n "string match -q '@*' -- (commandline -ct)" -a '(__cbfscheck_option_files)'
complete -c cbfscheck -n __cbfscheck_wants_image -F
complete -c cbfscheck -n "__cbfscheck_lacks '-r.*'" -s r -x -a '(__cbfscheck_areas ,)' -d 'areas that are checked as a CBFS'
complete -c cbfscheck -n '__cbfscheck_lacks -v' -s v -d 'all rows, and components without a digest'
complete -c cbfscheck -n "__cbfscheck_lacks '--need(=.*)?'" -l need -x -a '(__cbfscheck_needs)' -d 'required components'
complete -c cbfscheck -n '__cbfscheck_lacks --all-hashed' -l all-hashed -d 'require a digest for each component'
complete -c cbfscheck -n '__cbfscheck_lacks --list' -l list -d 'list all areas, and the components of checked areas'
complete -c cbfscheck -n '__cbfscheck_lacks --json' -l json -d 'report as one JSON document'
complete -c cbfscheck -n "__cbfscheck_lacks '--keep(=.*)?'" -l keep -x -a '(__cbfscheck_areas ,)' -d 'areas that the new image must not change'
complete -c cbfscheck -n '__cbfscheck_lacks --flash' -l flash -d 'check before the new image is flashed over the old one'
complete -c cbfscheck -n '__cbfscheck_lacks --keep-preserved' -l keep-preserved -d 'areas with the flag PRESERVE must not change'
complete -c cbfscheck -n '__cbfscheck_lacks --help' -l help -d 'print the help'
complete -c cbfscheck -n '__cbfscheck_lacks --version' -l version -d 'print the version'
