# shellcheck shell=sh
# Images as printf formats, for heapimage_cases and heapmend_cases: small ones of
# every version and edition, and ways to change them, cut them and pass them on.
# shellcheck disable=SC2030,SC2031,SC2034,SC2059,SC2317

# many COUNT BYTE: a byte, of three octal digits, so many times
many() { printf "%$1s" '' | sed "s/ /\\\\$2/g"; }

none=$(many 4 377)      # a word of the record; twice, a link
at0=$(many 4 000)       # a word: the first chunk's offset, or a count of 0
one='\001\000\000\000'
size='\200\000\000\000' # 128
most='\000\000\004\000' # 262,144
version=1               # of the images that are made
key=$none$none          # at the end of a record, from version 2 on
edition=$one            # behind it, from version 4 on
second=$none$none       # in every chunk: its back link, or its key
remainder=$none         # the record's last remainder

header() { printf '%s' "HPI\\00$version\\000"; }

# begins: where the arena begins in an image
begins() {
    case $version in
    1) echo 1581 ;;
    2 | 3) echo 1589 ;;
    *) echo 1593 ;;
    esac
}

# record LENGTH TOP HEAD COUNT FAST FIRST LAST FIRST64 LAST64: a record of those
# words, of cache list 0, fast list 0, bins 1 and 64; every other list is empty
record() {
    printf '%s' "$1$2$remainder$3" "$(many 252 377)" "$4" "$(many 252 000)" \
        "$5" "$(many 36 377)" "$6$7" "$(many 496 377)" "$8$9" "$(many 496 377)"
    [ "$version" -lt 2 ] || printf '%s' "$key"
    [ "$version" -lt 4 ] || printf '%s' "$edition"
}

# chunk WORD: 32 bytes with the size word WORD, the previous size 32, no link
chunk() {
    printf '%s' '\040' "$(many 7 000)" "$1" "$(many 7 000)" "$none$none$second"
}

# image HEAD COUNT FAST FIRST LAST: an arena of 128 bytes, four chunks of 32,
# their P set
image() {
    all=$(chunk '\041')
    printf '%s' "$(header)$size" \
        "$(record "$size" '\140\000\000\000' "$@" "$none" "$none")" \
        "$all$all$all$all"
}

# The first chunk is live, cached, fast, cached and fast, or in bin 1.
a_plain_one() { image "$none" "$at0" "$none" "$none" "$none"; }
a_cached_one() { image "$at0" "$one" "$none" "$none" "$none"; }
a_fast_one() { image "$none" "$at0" "$at0" "$none" "$none"; }
a_twice_listed_one() { image "$at0" "$one" "$at0" "$none" "$none"; }
a_binned_one() { image "$none" "$at0" "$none" "$at0" "$at0"; }

# with_version NUMBER EDITION: has images of that version made; one older than
# 4 has no edition
with_version() {
    version=$1
    edition="\\00$2"'\000\000\000'
    named="version $1"
    [ "$1" -lt 4 ] || named="version $1, edition $2"
    arena=$(begins)
    plain=$(a_plain_one)
    cached=$(a_cached_one)
    fast=$(a_fast_one)
    unmarked=$(a_binned_one)
}

# first COUNT: that many bytes of the plain one
first() { printf "$plain" | head -c "$1"; }

# from COUNT BYTES IMAGE: the image with other bytes behind its first COUNT
from() {
    printf "$3" | head -c "$1"
    printf "$2"
    printf "$3" | tail -c "+$(($1 + $(printf "$2" | wc -c) + 1))"
}

# The same at an offset of the record, and of the arena.
in_record() { from $((9 + $1)) "$2" "$3"; }
in_arena() { from $((arena + $1)) "$2" "$3"; }

# zeros COUNT BYTES: so many zeros behind those bytes
zeros() {
    printf "$2"
    head -c "$1" /dev/zero
}

# with_words SECOND KEY COMMAND..: images with that in every chunk, and that key
with_words() { (
    second=$1
    key=$2
    shift 2
    "$@"
); }

# large FIRST LAST LINK0 BACK0 LINK1056 BACK1056: an arena of 2,304 bytes: chunk
# 0 of 1,024 bytes, chunk 1056 of 1,040, a live one behind each, the top; of
# bin 64 the words, and of each link the lower half, the upper being the same
# as the lower if that is none, else 0. The skip links are those of two groups,
# unless skips, four halves in the same order, says otherwise.
at1056='\040\004\000\000'
ring="$at1056 $at1056 $at0 $at0"
skips=$ring
half() { if [ "$1" = "$none" ]; then printf '%s' "$none"; else many 4 000; fi; }
link() { printf '%s' "$1" "$(half "$1")"; }
large() {
    printf "$(header)"'\000\011\000\000'
    printf "$(record '\000\011\000\000' '\120\010\000\000' "$none" "$at0" \
        "$none" "$none" "$none" "$1" "$2")"
    printf "$(many 8 245)"'\001\004'"$(many 6 000)$(link "$3")$(link "$4")"
    printf "$(skip 1)$(skip 2)"
    printf "$(many 976 245)"'\000\004'"$(many 6 000)"'\040'"$(many 7 000)"
    printf "$(many 24 245)"'\021\004'"$(many 6 000)$(link "$5")$(link "$6")"
    printf "$(skip 3)$(skip 4)"
    printf "$(many 992 245)"'\020\004'"$(many 6 000)"'\040'"$(many 7 000)"
    printf "$(many 24 245)"'\261'"$(many 7 000)$(many 160 245)"
}
# skip NUMBER: that one of the four skip links
skip() { link "$(printf '%s' "$skips" | cut -d ' ' -f "$1")"; }

# stacked HEAD COUNT FAST BYTES: an arena of 8,192 bytes: a live chunk of 4,080,
# one of 32 behind it with those bytes for its link, the top
length='\000\040\000\000'
at4080='\360\017\000\000'
stacked() {
    printf "$(header)$length"
    printf "$(record "$length" '\020\020\000\000' "$1" "$2" "$3" \
        "$none" "$none" "$none" "$none")"
    printf "$(many 8 245)"'\361\017'"$(many 6 000)$(many 4064 245)"
    printf "$(many 8 245)"'\041'"$(many 7 000)$4$second"
    printf "$(many 8 245)"'\361\017'"$(many 6 000)$(many 4064 245)"
}

# whole LENGTH FIELD: zeros behind a header, in a file as long as the field says
whole() { zeros $((arena - 9 + $1)) "$(header)$2"; }

# in_pieces COUNT: the plain one, with a pause behind so many bytes
in_pieces() {
    first "$1"
    sleep 0.1
    printf "$plain" | tail -c "+$(($1 + 1))"
}
