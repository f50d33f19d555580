#!/bin/sh
# Opens files that hold no heap, and heaps whose log was spoiled, and says what is reported of each.
#
#     examples/damage/spoiled.sh [--quick]
. "$(dirname "$0")/../room.sh"
cd "$room" || exit

# opened WHY: what the program says of heap.img, and whether it left the file alone.
opened() {
    cksum <heap.img >before
    heap graph >out 2>&1
    status=$?
    if cksum <heap.img | cmp -s - before; then left="left as it was"; else left="changed"; fi
    printf '%-44s %-22s  status %s, %s\n' "$1" "$(paste -sd/ out)" "$status" "$left"
}

# spoiled WHY OFFSET BYTES..: the heap of first.script, with these bytes (octal) from that offset on.
spoiled() {
    why=$1 at=$2
    shift 2
    cp whole heap.img
    printf "$(printf '\\%s' "$@")" | dd of=heap.img bs=1 seek="$at" conv=notrunc 2>/dev/null
    opened "$why"
}

: >heap.img
opened 'an empty file'
head -c 100000 /dev/zero >heap.img
opened 'zeros'
cp "$top/LICENSE-MIT" heap.img
opened 'a text'

heap format 1 65536 1 >out
heap play <"$top/examples/basics/first.script" >out
cp heap.img whole
spoiled 'byte 0, the gate of the superblock: 0' 0 000
spoiled 'byte 8, the format: 2' 8 002
spoiled 'byte 65, the length of the batch: 33' 65 041
spoiled 'byte 69, the kind of the first record: 9' 69 011
spoiled 'byte 78, the field of the write: 4' 78 004
spoiled 'byte 97, the number of the commit: 0' 97 000
spoiled 'byte 88, the word: a reference to nothing' 88 032
spoiled 'byte 88, the word: the number 8 and not 7' 88 041
# cut WHY BYTES: that heap, of which no more than that many bytes are left.
cut() {
    head -c "$2" whole >heap.img
    opened "$1"
}

cut 'cut short after byte 79, in the batch' 80
cut 'cut short after byte 63, before the batch' 64
