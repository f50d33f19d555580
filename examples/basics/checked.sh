#!/bin/sh
# Plays a script whose last write has no room in the log: as it is, and then only if none of its lines is refused.
#
#     examples/basics/checked.sh [--quick]
. "$(dirname "$0")/../room.sh"
cd "$room" || exit
script=$top/examples/crashes/transfer.script
refusals='failed|alreadyactive|notactive|numbersspent|badhandle|range|badfield|busy|nosuchpage|volatilefull|exhausted|logfull|diskfault|stopped'

# play_whole SCRIPT: plays it on a copy of the heap first, and on the heap itself only if nothing was refused there.
play_whole() {
    mkdir -p copy && cp heap.img copy/heap.img
    (cd copy && heap play <"$1") >tried || return
    if grep -E -- "-> ($refusals)" tried; then return 1; fi
    heap play <"$1"
}

heap format 1 150 1 >out
echo 'as it is:'
heap play <"$script"
echo "status $?"
heap format 1 150 1 >out
echo 'only if nothing is refused:'
play_whole "$script"
echo "status $?"
heap graph
