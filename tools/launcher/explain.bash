# Part of the launcher heap: says how it is used, and what a user can do about an error.

commands="commands today: format PAGES LOGBYTES FIRST; play [--fresh PAGES] [--stop N] [--again M] < SCRIPT; threads [--fresh PAGES] [--tries N] < SCRIPT; graph; load SEED COUNT [--fresh PAGES]; session; lab [--pages PAGES] [--log BYTES] [FILE].."
limits="PAGES is 1 to 16384, LOGBYTES 64 to 1073741824, FIRST 1 to 4294967295; the heap is the file heap.img of this folder"

help() {
    echo "usage: heap [--quick] COMMAND"
    echo "$commands"
    echo "$limits"
    echo "with --quick nothing is proved; without it every crate is proved before the first run, which takes minutes"
}

# The commit that stands here, and the toolchain whose logic proves it.
version() {
    local commit kit
    commit=$(git -C "$top" describe --always --dirty 2>/dev/null) || commit='of no commit'
    kit=$(rt version 2>/dev/null) || kit='no toolchain: rt is not on the PATH'
    echo "heap $commit, $kit"
}

# What keeps the program from heap.img, as far as it can be seen afterwards.
why_no_disk() {
    local file=heap.img folder=$PWD left
    left=$(df --output=avail -- . 2>/dev/null | tail -n 1)
    if [ -d "$file" ]; then
        echo "heap.img is a folder"
    elif [ -e "$file" ] && [ ! -f "$file" ]; then
        echo "heap.img is no regular file"
    elif [ -L "$file" ] && [ ! -e "$file" ]; then
        echo "heap.img is a link that leads to no file"
    elif [ -e "$file" ] && { [ ! -r "$file" ] || [ ! -w "$file" ]; }; then
        echo "heap.img can't be both read and written here, by its permissions or its file system; tools/heap_inspect only reads it"
    elif [ ! -e "$file" ] && [ ! -w . ]; then
        echo "there is no permission to make heap.img in $folder"
    elif [ ! -r . ]; then
        echo "there is no permission to read the folder $folder, which is synced when the heap is opened"
    elif grep -q " [0-9a-f]*:[0-9a-f]*:$(stat -L -c %i -- "$file" 2>/dev/null) 0 EOF" /proc/locks 2>/dev/null; then
        echo "heap.img is in use by another run; tools/heap_inspect heap.img looks into it all the same"
    elif [ -n "$left" ] && [ "$left" -lt 1024 ]; then
        echo "the disk of $folder is full, or nearly: $((left)) KB are left"
    else
        echo "reading or writing heap.img failed: the system's log may say why; tools/heap_inspect heap.img looks into it and writes nothing"
    fi
}

# What a heap.img is that is no heap.
why_no_heap() {
    if [ -s heap.img ]; then
        echo "heap.img of this folder holds something else, or its making was cut short; tools/heap_inspect heap.img says which"
    else
        echo "heap.img of this folder is empty, as where there was none; ./heap format 1 65536 1 makes a heap there"
    fi
}

# Adds to the program's own text what a user can do about it.
explain() {
    if [ "${program-}" = crash_lab ]; then
        explain_lab "$1"
        return
    fi
    case "$1" in
    2)
        say "$commands"
        say "$limits"
        ;;
    3) say "nothing was played; examples/README.md, \"Why was my line refused?\", and docs/FORMATS.md say what a line may be: it has no tab, carriage return or byte order mark; line 0 is a script that is longer than 1048576 bytes" ;;
    5) say "whoever was to read the output is gone, or it has no room; what of a play's script came behind was not played" ;;
    6) say "$(why_no_disk)" ;;
    7) say "$(why_no_heap)" ;;
    10) say "heap.img is held by another run; tools/heap_inspect heap.img looks into it all the same" ;;
    8) say "keep a copy of heap.img before anything else; tools/heap_inspect heap.img says what can be read of it, and writes nothing" ;;
    153) say "the limit on the size of a file ended the run, as a crash: ulimit -f says how much is allowed" ;;
    129 | 1[3-5][0-9]) [ -n "$signal" ] || say "the run was ended by signal $(kill -l "$1"): to the heap that is a crash, and the next run recovers from it" ;;
    esac
}

# Adds what a user can do where a crash lab ended so.
explain_lab() {
    case "$1" in
    1) say "something differs: that is a fault of the heap, or a script that says another thing than it makes; please report it with the script" ;;
    4) say "a line of a script is none, as examples/README.md, \"Why was my line refused?\", says; line 0 is a script that is too long" ;;
    129 | 1[3-5][0-9]) [ -n "$signal" ] || say "the lab was ended by signal $(kill -l "$1")" ;;
    esac
}

# Refuses words that are no command, and builds nothing for them.
refuse() {
    echo "usage: heap [--quick] COMMAND" >&2
    explain 2
    exit 2
}
