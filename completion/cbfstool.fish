# Completion of cbfstool for fish: commands, options, types and digests, the regions that `layout`
# lists, and the components that `print` lists. It offers no names if a program of the same name has
# another output, or if another command locks the image for longer than a second.
#
# Names come from the image, and must never become a part of a command: fish quotes what `complete`
# offers.

# Prints the path that a word of the line stands for; `commandline -o` has removed its quotes.
function __cbfstool_path
    string match -q '~/*' -- $argv[1]; and printf '%s/' $HOME
    string replace -r '^~/' '' -- $argv[1]
end

# Prints the path of the program.
function __cbfstool_program
    set -l words (commandline -opc)
    __cbfstool_path $words[1]
end

# Prints the path of the image.
function __cbfstool_image
    set -l words (commandline -opc)
    __cbfstool_path $words[2]
end

# Returns whether the command is one of the arguments.
function __cbfstool_is
    set -l words (commandline -opc)
    test (count $words) -ge 3; and contains -- $words[3] $argv
end

# Prints the value of an option, and returns whether the option is given.
function __cbfstool_given
    set -l words (commandline -opc)
    for at in (seq 4 (count $words))
        switch $words[$at]
            case "-$argv[1]"
                # (-v has no value; the value of the last word is still to come)
                test $argv[1] = v; and return 0
                test $at -lt (count $words); or return 1
                __cbfstool_path $words[(math $at + 1)]
                return 0
            case "-$argv[1]*"
                string replace -r '^-.=?' '' -- $words[$at]
                return 0
        end
    end
    return 1
end

# Returns whether this number of words precedes the cursor.
function __cbfstool_at
    test (count (commandline -opc)) -eq $argv[1]
end

# Returns whether the command is one of the later arguments, and no option with a letter of the
# first argument is given.
function __cbfstool_takes
    for letter in (string split '' -- $argv[1])
        __cbfstool_given $letter > /dev/null; and return 1
    end
    __cbfstool_is $argv[2..]
end

# Reads names as the program prints them, and prints them as they are stored. fish can offer neither
# an empty name nor one with a control character, such as a line feed.
function __cbfstool_names
    while read -l shown
        string match -q -r -- '^$|\\\\x([01].|7f)' $shown; or printf '%b\n' $shown
    end
end

# Prints the areas of a file as they are listed; none if the output is not that of this cbfstool.
function __cbfstool_areas
    set -l rows (timeout 1 (__cbfstool_program) $argv[1] layout 2> /dev/null)
    string match -q -r '^fmap\t' -- $rows[1]; or return 1
    printf '%s\n' $rows[2..] | cut -f 1
end

# Reads names of regions, and prints those whose region has a CBFS.
function __cbfstool_holding
    set -l tool (__cbfstool_program)
    while read -l name
        timeout 1 $tool $argv[1] print -r=$name 2> /dev/null | read -l row
        set -l ended $pipestatus
        # (124 is the status of `timeout`)
        test $ended[1] -ne 124; or return
        test $ended[2] -eq 0; and printf '%s\n' $name
    end
end

# Prints the names of the regions that the command accepts.
function __cbfstool_regions
    set -l file (__cbfstool_image)
    if __cbfstool_is create
        set file (__cbfstool_given M); or return
        # (the earlier names of the list, without the option in the same word)
        set -l before (string unescape -- (string replace -r '^-r=?' '' -- (commandline -ct) | string match -r '^.*,'))
        for name in (__cbfstool_areas $file | __cbfstool_names)
            printf '%s%s\n' "$before" $name
        end
    else if __cbfstool_is extract add remove
        __cbfstool_areas $file | __cbfstool_names | __cbfstool_holding $file
    else
        __cbfstool_areas $file | __cbfstool_names
    end
end

# Prints the names of the components of the region that is given.
function __cbfstool_components
    set -l region (__cbfstool_given r); or set region COREBOOT
    set -l file (__cbfstool_image)
    __cbfstool_areas $file > /dev/null; or return
    timeout 1 (__cbfstool_program) $file print -r=$region 2> /dev/null |
        string match -rv '^\(empty\)\t[^\t]*\t(null|deleted)\t' | cut -f 1 | __cbfstool_names
end

complete -c cbfstool -f
complete -c cbfstool -n '__cbfstool_at 1' -F
complete -c cbfstool -n '__cbfstool_at 2' -a print -d 'list the cells of a region'
complete -c cbfstool -n '__cbfstool_at 2' -a layout -d 'list the areas of the flashmap'
complete -c cbfstool -n '__cbfstool_at 2' -a extract -d 'write the content of a component to a file'
complete -c cbfstool -n '__cbfstool_at 2' -a add -d 'add a file as a component'
complete -c cbfstool -n '__cbfstool_at 2' -a remove -d 'put free space in place of a component'
complete -c cbfstool -n '__cbfstool_at 2' -a read -d 'write the bytes of a region to a file'
complete -c cbfstool -n '__cbfstool_at 2' -a write -d 'replace the bytes of a region by a file'
complete -c cbfstool -n '__cbfstool_at 2' -a create -d 'make an image of a flashmap'
complete -c cbfstool -n '__cbfstool_takes r print extract add remove read write create' -s r -x \
    -a '(__cbfstool_regions)' -d 'the region, an area of the flashmap'
complete -c cbfstool -n '__cbfstool_takes n extract remove' -s n -x -a '(__cbfstool_components)' -d 'the name of the component'
complete -c cbfstool -n '__cbfstool_takes n add' -s n -x -d 'the name of the component'
complete -c cbfstool -n '__cbfstool_takes f extract add read write' -s f -r -F -d 'the file'
complete -c cbfstool -n '__cbfstool_takes t add' -s t -x -d 'the type of the component' \
    -a 'bootblock cbfs\ header legacy\ stage stage simple\ elf fit_payload optionrom bootsplash raw vsa mbi microcode fsp mrc
        cmos_default spd mrc_cache cmos_layout'
complete -c cbfstool -n '__cbfstool_takes ab add' -s a -x -d 'the content begins at a multiple of this'
complete -c cbfstool -n '__cbfstool_takes ab add' -s b -x -d 'the content begins just there'
complete -c cbfstool -n '__cbfstool_takes A add' -s A -x -a 'sha256 sha512' -d 'the digest that is stored of the content'
complete -c cbfstool -n '__cbfstool_takes v print' -s v -d 'a line for each attribute and digest'
complete -c cbfstool -n '__cbfstool_takes M create' -s M -r -F -d 'the flashmap of which the image is made'
