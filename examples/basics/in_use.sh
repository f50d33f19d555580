#!/bin/sh
# Tries to open a heap that another run has, a file that another program has locked, and what is no file.
#
#     examples/basics/in_use.sh [--quick]
. "$(dirname "$0")/../room.sh"
cd "$room" || exit

# is_same: says whether the file still has the bytes that the last call of note_bytes found.
note_bytes() {
    cksum <heap.img >before
}

is_same() {
    if cksum <heap.img | cmp -s - before; then echo "heap.img is as it was"; else echo "heap.img has changed"; fi
}

echo "a run that is held up, since nobody reads what it writes:"
show format 1 65536 1
{
    cat "$here/first.script"
    echo "2 begin"
    echo "2 root 0"
    yes "2 same 0 0" | head -n 10000
} >long.script
mkfifo lines
"$top/heap" $quick play <long.script >lines 2>/dev/null &
first=$!
exec 3<lines
# It has made its commit when a pipe full of lines has come, and it holds the file until it ends.
read -r line <&3
sleep 2
note_bytes
show graph
show play --fresh 1 </dev/null
show session </dev/null
is_same
cat <&3 >rest
wait "$first"
echo "the first run ends with status $?, and the heap is free:"
show graph

echo "a program that has locked the file:"
note_bytes
echo "> flock heap.img heap graph"
flock heap.img "$top/heap" $quick graph 2>said
status=$?
grep -v '^heap: ' said
echo "status $status"
is_same

echo "a folder in its place:"
rm heap.img
mkdir heap.img
show graph
