# What the scripts share that measure our cbfstool beside coreboot's; for bash.

# programs [--built | CBFSTOOL FMAPTOOL CBFSCHECK [CBFSSEAL]]: goes to a new folder, with copies of
# the programs first on PATH: those that it builds, those that lie in out/, or those given; the last
# one is that of out/ without a path. Needs the repository as the current folder, which is `top`
# then.
programs() {
    local program
    top=$PWD
    case ${1:-} in
        "" | --built)
            for program in cbfstool fmaptool cbfscheck cbfsseal; do
                [ "${1:-}" = --built ] ||
                    (cd "crates/$program" && rt run -- $(cat args 2> /dev/null) > /dev/null)
            done
            set -- crates/cbfstool/out/cbfstool crates/fmaptool/out/fmaptool \
                crates/cbfscheck/out/cbfscheck
            ;;
    esac
    [ $# = 4 ] || set -- "$@" crates/cbfsseal/out/cbfsseal
    [ $# = 4 ] || fail "wanted: nothing, --built, or three or four programs"
    work=$(mktemp -d)
    trap 'rm -rf "$work"' EXIT
    mkdir "$work/bin" "$work/scratch"
    cp "$1" "$work/bin/cbfstool"
    cp "$2" "$work/bin/fmaptool"
    cp "$3" "$work/bin/cbfscheck"
    cp "$4" "$work/bin/cbfsseal"
    chmod 755 "$work" "$work"/bin/*
    PATH=$work/bin:$PATH
    cd "$work/scratch"
}

# fail TEXT..: ends with status 1 and the text
fail() {
    printf '%s\n' "$*" >&2
    exit 1
}

# peers: `ours` and `theirs` are the two programs, `theirs` empty where coreboot's isn't here; what isn't here to measure
# with is told
peers() {
    local path
    ours=$work/bin/cbfstool
    theirs=
    for path in $(type -ap cbfstool) /usr/sbin/cbfstool; do
        [[ $("$path" -h 2>&1 || true) != *"CBFS formatted ROM images"* ]] || theirs=$path
    done
    [ -n "$theirs" ] || echo "NOT COMPARED, since coreboot's cbfstool isn't here" >&2
    command -v hyperfine > /dev/null || fail "hyperfine isn't here"
    command -v strace > /dev/null || echo "NO SYSTEM CALLS counted, since strace isn't here" >&2
    [ -x /usr/bin/time ] || echo "NO MEMORY measured, since GNU time isn't here" >&2
    failed=0
}

# machine: the processors, their load, the version that is measured and the day, for the first line of the saved figures
machine() {
    local kind
    kind=$(sed -n '/^model name/{s/^[^:]*: *//p;q}' /proc/cpuinfo)
    echo "$(nproc) processors${kind:+ ($kind)} with a load of $(cut -d ' ' -f 1 /proc/loadavg), version $(cat "$top/VERSION"), $(LC_ALL=C date '+%-d %B %Y')"
}

# image NAME DESCRIPTOR: makes an image of a descriptor, with our own tools
image() {
    echo "$2" > "$1.fmd"
    fmaptool "$1.fmd" "$1.fmap"
    "$ours" "$1.rom" create -M "$1.fmap" 2> told && return
    echo "FAILED: create of $1.rom: $(cat told); coreboot's makes it" >&2
    failed=1
    "$theirs" "$1.rom" create -M "$1.fmap" > /dev/null 2>&1
}

# many NAME COUNT: makes an image of so many components, each of 100 bytes in a cell of 192 and with its number of seven
# digits as its name, and of 64 KiB that are free. One addition a component would take minutes: the cells' bytes are
# written here, and put in by `write`.
many() {
    local size=$(($2 * 192 + 65536)) content padding
    content=$(printf 'x%.0s' {1..100})
    padding=$(printf '\\377%.0s' {1..60})
    {
        printf "LARCHIVE\0\0\0\144\0\0\0\120\0\0\0\0\0\0\0\40%07d\0$content$padding" $(seq "$2")
        printf LARCHIVE
        big $((65536 - 32))
        printf '\377\377\377\377\0\0\0\0\0\0\0\34\0\0\0\0'
        ones $((65536 - 28))
    } > "$1.region"
    image "$1" "F $((size + 4096)) { FMAP 4K COREBOOT(CBFS) $size }"
    "$ours" "$1.rom" write -r COREBOOT -f "$1.region"
    rm "$1.region"
    [ "$("$ours" "$1.rom" print | wc -l)" = $(($2 + 1)) ] || fail "$1.rom hasn't $2 components"
}

# peak WORDS..: the greatest memory of a command, in KB
peak() {
    if [ ! -x /usr/bin/time ]; then
        echo -
    elif /usr/bin/time -f %M -o peaked "$@" > /dev/null 2>&1; then
        tail -n 1 peaked
    else
        echo FAILED
    fi
}

# calls WORDS..: how many system calls a command makes
calls() {
    if ! command -v strace > /dev/null; then
        echo -
    else
        strace -f -o traced "$@" > /dev/null 2>&1 || :
        grep -vc '[+-]\{3\} ' traced
    fi
}
