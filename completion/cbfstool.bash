# Completion of cbfstool for bash: commands, options, types and digests, the regions that `layout`
# lists, and the components that `print` lists. It offers no names if a program of the same name has
# another output, or if another command locks the image for longer than a second.
#
# Names come from the image, and must never become a part of a command. So a name is offered with a
# backslash before each special character; after an open quote, a name with a special character is
# not offered.

# _cbfstool_words: stores the words up to the cursor in `words`, and joins those that bash splits at
# COMP_WORDBREAKS
_cbfstool_words() {
    local line=${COMP_LINE:0:COMP_POINT} word
    words=()
    for word in "${COMP_WORDS[@]:0:COMP_CWORD+1}"; do
        if [[ ${#words[@]} == 0 || -z $line || $line == [[:blank:]]* ]]; then
            line=${line#"${line%%[![:blank:]]*}"}
            words+=("${word:0:${#line}}")
        else
            words[-1]+=${word:0:${#line}}
        fi
        line=${line#"$word"}
    done
}

# _cbfstool_plain WORD: stores the argument that the word stands for in `plain`, the quote that is
# still open in `quote`, and whether a quoted part has ended in `closed`. `ahead` is the start of
# the argument that readline does not replace: the text before the open quote, or up to the last
# separator.
_cbfstool_plain() {
    local word=$1 at=0 char next code
    plain="" quote="" closed="" ahead=""
    [[ $word != "~/"* ]] || plain=$HOME at=1
    for ((; at < ${#word}; at++)); do
        char=${word:at:1} next=${word:at+1:1}
        if [[ $quote && $char == "$quote" ]]; then
            quote="" closed=yes
        elif [[ $char == \\ && $quote != \' ]] && [[ ! $quote || $next == [\$\`\"\\] ]]; then
            plain+=$next
            at=$((at + 1))
        elif [[ $quote ]]; then
            plain+=$char
        elif [[ ${word:at} =~ ^\$\'(([^\\\']|\\.)*)\' ]]; then
            printf -v code %b "${BASH_REMATCH[1]//\\\'/\'}"
            plain+=$code closed=yes
            at=$((at + ${#BASH_REMATCH} - 1))
        elif [[ $char == [\"\'] ]]; then
            quote=$char ahead=$plain
        else
            # (readline replaces a separator @ too)
            [[ $COMP_WORDBREAKS != *"$char"* ]] || ahead=$plain${char#@}
            plain+=$char
        fi
    done
}

# _cbfstool_offer NAME..: offers the names that, after the text `before`, begin with the current
# word
_cbfstool_offer() {
    local name text
    for name; do
        text=$before$name
        [[ $name && $text == "$plain"* ]] || continue
        if [[ $quote ]]; then
            [[ $text != *[\$\`\"\'\\!]* && $text != *[[:cntrl:]]* ]] || continue
            COMPREPLY+=("${text#"$ahead"}")
        elif [[ ! $closed ]]; then
            printf -v text %q "${text#"$ahead"}"
            # (a comma is special in braces only, which have a backslash)
            text=${text//\\,/,}
            COMPREPLY+=("$text")
        fi
    done
}

# _cbfstool_list FILE COMMAND..: prints the output of the program, unless that takes more than a
# second
_cbfstool_list() {
    timeout 1 "$tool" "$@" 2> /dev/null
}

# _cbfstool_regions FILE: stores the names of the areas in `names`; none if the output is not that
# of this cbfstool
_cbfstool_regions() {
    local row name
    names=()
    {
        IFS= read -r row && [[ $row == fmap$'\t'* ]] || return 0
        while IFS= read -r row; do
            printf -v name %b "${row%%$'\t'*}"
            names+=("$name")
        done
    } < <(_cbfstool_list "$1" layout)
}

# _cbfstool_holding FILE: keeps those of the `names` whose region has a CBFS
_cbfstool_holding() {
    local name first held=()
    for name in "${names[@]}"; do
        # (124 is the status of `timeout`)
        first=$(_cbfstool_list "$1" print "-r=$name" | head -c 1; ((PIPESTATUS[0] != 124))) || break
        [[ -z $first ]] || held+=("$name")
    done
    names=("${held[@]}")
}

# _cbfstool_components FILE REGION: stores the names of the components in `names`; none if the
# output is not that of this cbfstool
_cbfstool_components() {
    local row name free=$'(empty)\t*\t@(null|deleted)\t*'
    _cbfstool_regions "$1"
    ((${#names[@]})) || return 0
    names=()
    while IFS= read -r row; do
        [[ $row != $free ]] || continue
        printf -v name %b "${row%%$'\t'*}"
        names+=("$name")
    done < <(_cbfstool_list "$1" print "-r=$2")
}

# _cbfstool_given LETTER: returns whether the option is given, and stores its value in `given`
_cbfstool_given() {
    local at
    for ((at = 3; at < ${#texts[@]} - 1; at++)); do
        case ${texts[at]} in
            "-$1") given=${texts[at + 1]-} ;;
            "-$1="*) given=${texts[at]#*=} ;;
            "-$1"*) given=${texts[at]:2} ;;
            *) continue ;;
        esac
        return 0
    done
    return 1
}

# _cbfstool_letters COMMAND: stores the letters of the command's options in `options`
_cbfstool_letters() {
    options=
    case $1 in
        print) options="r v" ;;
        extract) options="r n f" ;;
        add) options="r n f t a b A" ;;
        remove) options="r n" ;;
        read | write) options="r f" ;;
        create) options="M r" ;;
    esac
}

# _cbfstool_options: offers the options that can still be given
_cbfstool_options() {
    local option offered=()
    for option in $options; do
        _cbfstool_given "$option" && continue
        [[ $option == a ]] && _cbfstool_given b && continue
        [[ $option == b ]] && _cbfstool_given a && continue
        offered+=("-$option")
    done
    _cbfstool_offer "${offered[@]}"
}

# _cbfstool_value LETTER: offers values of the option
_cbfstool_value() {
    case $1 in
        f | M)
            if [[ $before ]]; then
                mapfile -t names < <(compgen -f -- "${plain#"$before"}")
                _cbfstool_offer "${names[@]}"
            else
                compopt -o default
            fi
            ;;
        r)
            if [[ ${texts[2]} == create ]]; then
                _cbfstool_given M || return 0
                image=$given
                [[ $plain != *,* ]] || before=${plain%,*},
            fi
            _cbfstool_regions "$image"
            [[ ${texts[2]} != @(extract|add|remove) ]] || _cbfstool_holding "$image"
            _cbfstool_offer "${names[@]}"
            ;;
        n)
            [[ ${texts[2]} != add ]] || return 0
            given=COREBOOT
            _cbfstool_given r
            _cbfstool_components "$image" "$given"
            _cbfstool_offer "${names[@]}"
            ;;
        t)
            _cbfstool_offer bootblock "cbfs header" "legacy stage" stage "simple elf" fit_payload optionrom bootsplash raw \
                vsa mbi microcode fsp mrc cmos_default spd mrc_cache cmos_layout
            ;;
        A) _cbfstool_offer sha256 sha512 ;;
    esac
}

_cbfstool() {
    local words texts=() names=() word plain quote closed ahead given before="" tool image options
    COMPREPLY=()
    _cbfstool_words
    for word in "${words[@]}"; do
        _cbfstool_plain "$word"
        texts+=("$plain")
    done
    tool=${texts[0]} image=${texts[1]}
    _cbfstool_letters "${texts[2]-}"
    if [[ ${#words[@]} == 2 ]]; then
        compopt -o default
    elif [[ ${#words[@]} == 3 ]]; then
        _cbfstool_offer print layout extract add remove read write create
    elif [[ ${texts[-2]} == -[rnftabAM] ]]; then
        _cbfstool_value "${texts[-2]:1}"
    elif [[ $plain == -[rnftabAM]?* ]]; then
        # (an option and its value in one word, as `-rNAME` or `-r=NAME`)
        [[ $options == *${plain:1:1}* ]] || return 0
        before=${plain:0:2}
        [[ $plain != -?=* ]] || before+="="
        _cbfstool_value "${plain:1:1}"
    else
        _cbfstool_options
    fi
}

complete -F _cbfstool cbfstool
