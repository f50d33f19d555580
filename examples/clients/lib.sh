#!/bin/sh
# Tries the heap in a program's own process, and compares it with the client over a pipe: the same tests, drawn events, kills, what a crash may leave of the
# calls on the file that were made by then, calls that fail, memory that is refused.
#
#     examples/clients/lib.sh [--quick]
#
# With --quick the library, and the program behind the pipe, are compiled with nothing proved; else the library is proved first, unless it is.
. "$(dirname "$0")/../room.sh"
. "$here/launcher.sh"
client=$top/clients/c
library=$top/clients/lib
built=$library/build${quick:+/quick}
archive=$top/crates/heap_c/out/libheap_c.a
[ -z "$quick" ] || archive=$built/libheap_c.a
program=$top/.build/${quick:+quick/}heap_shell
strict="-std=c99 -Wall -Wextra -Wpedantic -O1 -g"
watched="-fsanitize=address,undefined"

# made [VARIABLE=VALUE]..: the library.
made() {
    make -s -C "$library" ${quick:+QUICK=1} "$@" || exit
}

# over_library PROGRAM LIBRARY SOURCE [FLAG]: a program over the library.
over_library() {
    cc $strict $4 -I"$client" -o "$1" "$here/$3" "$2/libstable_heap.a" -lpthread || exit
}

tried() {
    mkdir "$1.heap"
    if "./$1" "$1.heap" - 2>log; then echo "the tests pass$2"; else cat log; fi
}

heap format 1 65536 1 >log || exit
made
made BUILD="$room/watched" CFLAGS="-O1 -g $watched"
over_library tests "$built" c_client.c
over_library watched_tests watched c_client.c $watched
tried tests
tried watched_tests ", watched by the compiler"

over_library drawn "$built" drawn.c
over_library watched_drawn watched drawn.c $watched
cc $strict -I"$client" -o piped_drawn "$here/drawn.c" "$client/stable_heap.c" || exit
mkdir here watched_here piped played
for seed in 1 2 3; do
    for folder in here watched_here piped; do rm -f "$folder/heap.img"; done
    ./piped_drawn piped $seed 2000 64 $HEAP >piped.out 2>log || cat log
    ./drawn here $seed 2000 1 - >here.out
    ./watched_drawn watched_here $seed 2000 64 - >watched.out
    (cd played && "$here/played.py" "$program" <../here.out)
    cmp piped.out here.out && cmp piped.out watched.out && cmp piped/heap.img here/heap.img && cmp piped/heap.img watched_here/heap.img &&
        cmp played/heap.img here/heap.img && echo "$(wc -l <here.out) drawn events: the same answers and the same file as through the pipe, and as they are played"
done

# the examples of the client for C, which print here what they print over the pipe
cc $strict -I"$client" -o todo "$client/todo.c" "$built/libstable_heap.a" -lpthread || exit
cc $strict -I"$client" -o bank "$client/bank.c" "$built/libstable_heap.a" -lpthread || exit
mkdir list money
{
    for what in "add 5" "add 6" "add 7" "done 6"; do ./todo list $what -; done
    echo "to do:" $(./todo list list 0 -)
    ./bank money 5 -
} >printed 2>log || cat log
tail -n +2 "$here/c.out" | cmp - printed && echo "the examples print what they print over the pipe"

# two libraries that open their heap again by themselves after 60 events, and after each transaction
made BUILD="$room/eager" CFLAGS="-O1 -g -DMOST_EVENTS=60"
over_library memory eager memory.c -Wl,--wrap=malloc,--wrap=realloc,--wrap=free,--wrap=pthread_mutex_unlock
mkdir refused
./memory refused 2>log || cat log
made BUILD="$room/restless" CFLAGS="-O1 -g -DMOST_EVENTS=1"
over_library restless_tests restless c_client.c
tried restless_tests ", where the heap is opened again after each transaction"

made BUILD="$room/raced" CFLAGS="-O1 -g -fsanitize=thread"
over_library threads raced threads.c -fsanitize=thread
mkdir counted_by_four
./threads counted_by_four 2>log || cat log

if command -v rustc >/dev/null; then
    mkdir runs
    rustc -O -L "$built" -l static=stable_heap -o count "$library/count.rs" >log 2>&1 && ./count runs >log && ./count runs >log
    grep -qx "run 2" log || cat log
fi

# (a test that kills the heap's process is left out)
cc -shared -fPIC -O1 -o no_memory.so "$here/no_memory.c" -ldl || exit
STABLE_HEAP_LIBRARY=$built/libstable_heap.so LD_PRELOAD=$room/no_memory.so PYTHONDONTWRITEBYTECODE=1 HEAP=here "$here/python_client.py" >log 2>&1 &&
    echo "the tests for Python pass" || cat log
STABLE_HEAP_LIBRARY=$room/restless/libstable_heap.so PYTHONDONTWRITEBYTECODE=1 HEAP=here "$here/python_client.py" >log 2>&1 &&
    echo "the tests for Python pass, where the heap is opened again after each transaction" || cat log

over_library counter "$built" counter.c
cc -shared -fPIC -O1 -o faults.so "$here/faults.c" -ldl || exit
python3 "$here/library.py" ./counter ./faults.so 200

# crashed LIBRARY: what a crash leaves of its file.
crashed() {
    STABLE_HEAP_LIBRARY=$1/libstable_heap.so "$here/crashed.py" ./faults.so "$program" 2>log
}

# spoiled NAME OLD NEW [OLD NEW]: in a library of which OLD is NEW it is found that it breaks its word.
spoiled() {
    name=$1
    shift
    rm -rf spoiled
    mkdir -p spoiled/lib
    cp -r "$client" spoiled/c
    cp "$library"/*.[ch] "$library/Makefile" spoiled/lib
    python3 - spoiled/lib/stable_heap_lib.c "$@" <<'END' || exit
import sys

path, *edits = sys.argv[1:]
text = open(path, encoding="utf-8").read()
for old, new in zip(edits[::2], edits[1::2]):
    assert text.count(old) == 1, old
    text = text.replace(old, new)
open(path, "w", encoding="utf-8").write(text)
END
    make -s -C spoiled/lib BUILD=build ARCHIVE="$archive" || exit
    crashed spoiled/lib/build && echo "NOT FOUND: $name"
    grep -q "^a crash after" log && echo "found: $name" || cat log
}

crashed "$built"
make_sync='kind == HC_SYNC && fdatasync(heap->file) == 0'
spoiled "no sync is made" "$make_sync" 'kind == HC_SYNC'
spoiled "an answer comes before its last sync" \
    'static bool make_write(' 'static bool owed; static bool make_write(' \
    'uint64_t at = last(heap, 0), length = last(heap, 1);' \
    'uint64_t at = last(heap, 0), length = last(heap, 1); if (owed) fdatasync(heap->file); owed = false;' \
    "$make_sync" 'kind == HC_SYNC && (owed = true)'
spoiled "a force is answered before its writes" 'if (!drain(heap)) {
        memset' 'if (event->op != SH_EVENT_FORCE && !drain(heap)) {
        memset'
