#!/bin/sh
# Plays a script by threads, and then the events that were printed, in their order, alone on an equal heap: the same is printed, and the same
# bytes are left. Which order it was differs from run to run, so of the lines only those of the graph are shown.
#
#     examples/sessions/threads.sh [--quick]
. "$(dirname "$0")/../room.sh"
cd "$room" || exit

heap play --fresh 1 <"$here/two_objects.script" >out || exit
cp heap.img before.img

echo '> heap threads < threads.script'
heap threads <"$here/threads.script" >by_threads || exit
sed -n '/^graph /,$p' by_threads
mv heap.img left.img

sed -n 's/ -> .*//p' by_threads >made.script
cp before.img heap.img
echo '> heap play < made.script'
heap play <made.script >alone || exit
cmp by_threads alone && echo 'all lines are the same'
cmp left.img heap.img && echo 'all bytes of heap.img are the same'
