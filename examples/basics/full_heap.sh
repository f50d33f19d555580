#!/bin/sh
# Fills heaps with commits of one write each, and then reads them.
#
#     examples/basics/full_heap.sh [--quick]
. "$(dirname "$0")/../room.sh"
cd "$room" || exit

# fill LOGBYTES COMMITS: makes a heap, and plays transactions on it until one more than these were tried.
fill() {
    heap format 1 "$1" 1 >out || exit
    seq 0 "$2" | sed 's/.*/1 begin\n1 root 0\n1 put 0 0 &\n1 commit/' >script
    heap play <script >out || exit
    echo "a log of $1 bytes: the last commit that is acknowledged, and what is refused after it"
    sed -n '/> durable/h; /> logfull/{x;p;x;p;q}' out
}

fill 1024 27
show graph
printf '1 begin\n' >begin.script
echo "> heap play < begin.script"
heap play <begin.script
fill 65536 1770
show graph
