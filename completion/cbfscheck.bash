# Completion of cbfscheck for bash: options, files for its two images and for @FILE, and the areas of
# the first image on the line, as the cbfstool in the same folder lists them. It offers no areas if
# the image is read-only, or if another command locks it for longer than a second.
#
# Names come from the image, and must never become a part of a command. So a name is offered with a
# backslash before each special character; after an open quote, a name with a special character is
# not offered.

# _cbfscheck_join LINE WORD..: appends the words of the line to `words`, and joins those that bash
# splits at COMP_WORDBREAKS
_cbfscheck_join() {
    local line=$1 word
    shift
    for word; do
        if [[ ${#words[@]} == 0 || -z $line || $line == [[:blank:]]* ]]; then
            line=${line#"${line%%[![:blank:]]*}"}
            words+=("${word:0:${#line}}")
        else
            words[-1]+=${word:0:${#line}}
        fi
        line=${line#"$word"}
    done
}

# _cbfscheck_plain WORD: stores the argument that the word stands for in `plain`, the quote that is
# still open in `quote`, and whether a quoted part has ended in `closed`. `ahead` is the start of
# the argument that readline does not replace: the text before the open quote, or up to the last
# separator.
_cbfscheck_plain() {
    local word=$1 at=0 char next code
    plain="" quote="" closed="" ahead=""
    [[ $word != "~/"* ]] || plain=$HOME at=1
    for ((; at < ${#word}; at++)); do
        char=${word:at:1} next=${word:at+1:1}
        if [[ $quote && $char == "$quote" ]]; then
            quote="" closed=yes
        elif [[ $char == \\ && $quote != \' ]] && [[ ! $quote || $next == [\$\`\"\\] ]]; then
            plain+=$next
            at=$((at + 1))
        elif [[ $quote ]]; then
            plain+=$char
        elif [[ ${word:at} =~ ^\$\'(([^\\\']|\\.)*)\' ]]; then
            printf -v code %b "${BASH_REMATCH[1]//\\\'/\'}"
            plain+=$code closed=yes
            at=$((at + ${#BASH_REMATCH} - 1))
        elif [[ $char == [\"\'] ]]; then
            quote=$char ahead=$plain
        else
            # (readline replaces a separator @ too)
            [[ $COMP_WORDBREAKS != *"$char"* ]] || ahead=$plain${char#@}
            plain+=$char
        fi
    done
}

# _cbfscheck_offer NAME..: offers the names that, after the text `before`, begin with the current
# word; `after` follows them
_cbfscheck_offer() {
    local name text
    for name; do
        text=$before$name
        [[ $name && $text == "$plain"* ]] || continue
        if [[ $quote ]]; then
            [[ $text != *[\$\`\"\'\\!]* && $text != *[[:cntrl:]]* ]] || continue
            COMPREPLY+=("${text#"$ahead"}$after")
        elif [[ ! $closed ]]; then
            printf -v text %q "${text#"$ahead"}"
            # (a comma is special in braces only, which have a backslash)
            text=${text//\\,/,}
            COMPREPLY+=("$text$after")
        fi
    done
}

# _cbfscheck_areas OPTION: offers the areas that can be named in the value of the option
_cbfscheck_areas() {
    local row name names=() tool=cbfstool value=${plain#"$before"} separators=,
    [[ ${texts[0]} != */* ]] || tool=${texts[0]%/*}/cbfstool
    [[ -n $image ]] || return 0
    if [[ $1 == --need ]]; then
        # (a component's name follows the colon)
        [[ ${value##*,} != *:* ]] || return 0
        separators=,: after=:
        compopt -o nospace
    fi
    [[ $value != *,* ]] || before+=${value%,*},
    {
        IFS= read -r row && [[ $row == fmap$'\t'* ]] || return 0
        while IFS= read -r row; do
            printf -v name %b "${row%%$'\t'*}"
            [[ $name == *[$separators]* ]] || names+=("$name")
        done
    } < <(timeout 1 "$tool" "$image" layout 2> /dev/null)
    _cbfscheck_offer "${names[@]}"
}

# _cbfscheck_option_files: offers the files of an argument @FILE
_cbfscheck_option_files() {
    local name names=()
    before=@
    while IFS= read -r name; do
        [[ ! -d $name ]] || name+=/
        names+=("$name")
    done < <(compgen -f -- "${plain#@}")
    # (the rest of a path follows a single folder, and no blank)
    [[ ${#names[@]} != 1 || ${names[0]} != */ ]] || compopt -o nospace
    _cbfscheck_offer "${names[@]}"
}

_cbfscheck() {
    local words=() texts=() images=() given=" " wanted="" before="" after="" image=""
    local word rest plain quote closed ahead last at option
    COMPREPLY=()
    _cbfscheck_join "${COMP_LINE:0:COMP_POINT}" "${COMP_WORDS[@]:0:COMP_CWORD+1}"
    last=$((${#words[@]} - 1))
    rest=${COMP_LINE:COMP_POINT}
    _cbfscheck_join "${rest#"${rest%%[[:blank:]]*}"}" "${COMP_WORDS[@]:COMP_CWORD+1}"
    for word in "${words[@]}"; do
        _cbfscheck_plain "$word"
        texts+=("$plain")
    done
    _cbfscheck_plain "${words[last]}"
    for ((at = 1; at < ${#texts[@]}; at++)); do
        case ${texts[at]} in
            -r | --keep | --need)
                [[ $at == "$last" ]] || given+="${texts[at]} "
                [[ $((at + 1)) != "$last" ]] || wanted=${texts[at]}
                at=$((at + 1))
                ;;
            *)
                [[ $at != "$last" ]] || continue
                case ${texts[at]} in
                    -r?*) given+="-r " ;;
                    --*=*) given+="${texts[at]%%=*} " ;;
                    -*) given+="${texts[at]} " ;;
                    @*) ;;
                    *) images+=("${texts[at]}") ;;
                esac
                ;;
        esac
    done
    image=${images[0]-}
    if [[ $plain == @* ]]; then
        _cbfscheck_option_files
    elif [[ $wanted ]]; then
        _cbfscheck_areas "$wanted"
    elif [[ $plain == --keep=* || $plain == --need=* || $plain == -r=* ]]; then
        before=${plain%%=*}=
        _cbfscheck_areas "${plain%%=*}"
    elif [[ $plain == -r?* ]]; then
        before=-r
        _cbfscheck_areas -r
    elif [[ $plain != -* ]]; then
        ((${#images[@]} > 1)) || compopt -o default
    else
        for option in -r -v --need --all-hashed --list --json --flash --keep --keep-preserved --help --version; do
            [[ $given == *" $option "* ]] || _cbfscheck_offer "$option"
        done
    fi
}

complete -F _cbfscheck cbfscheck
