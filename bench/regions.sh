# What the scripts of this folder share: images, tables and lists that are made or edited by hand.

# part FILE OFFSET SIZE: these bytes of a file
part() {
    head -c $(($2 + $3)) "$1" | tail -c "$3"
}

# big NUMBER: its four bytes, the highest first
big() {
    local bytes
    printf -v bytes '\\x%02x' $(($1 >> 24)) $(($1 >> 16 & 255)) $(($1 >> 8 & 255)) $(($1 & 255))
    printf '%b' "$bytes"
}

# low NUMBER: its four bytes, the lowest first
low() {
    local bytes
    printf -v bytes '\\x%02x' $(($1 & 255)) $(($1 >> 8 & 255)) $(($1 >> 16 & 255)) $(($1 >> 24))
    printf '%b' "$bytes"
}

# ones COUNT: so many bytes 0xff
ones() {
    head -c "$1" /dev/zero | tr '\0' '\377'
}

# put FILE PLACE: what is read takes the place of the file's bytes from there on
put() {
    dd of="$1" bs=64K seek="$2" oflag=seek_bytes conv=notrunc status=none
}

# field NAME: its bytes, and NULs up to 32
field() {
    local LC_ALL=C
    printf %s "$1"
    head -c $((32 - ${#1})) /dev/zero
}

# table SIZE [NAME OFFSET SIZE]..: the flashmap of an image of this size with these areas
table() {
    printf '__FMAP__\1\1\0\0\0\0\0\0\0\0'
    low $(($1))
    shift
    field F
    low $(($# / 3)) | head -c 2
    while [ $# -gt 0 ]; do
        low $(($2))
        low $(($3))
        field "$1"
        printf '\0\0'
        shift 3
    done
}
