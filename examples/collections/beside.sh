#!/bin/sh
# Plays a collection beside the transactions of two sessions, and then the same lines without it, of which the others are answered the same.
#
#     examples/collections/beside.sh [--quick]
. "$(dirname "$0")/../room.sh"
cd "$room" || exit

heap format 4 65536 1 >out
heap play <"$here/ledger.script" >out
cp heap.img ledger.img
played beside.script play >beside
sed 's/\( -\)\{8,\}$/ - ../' beside
grep -v -x -e flip -e scan "$here/beside.script" >without.script
cp ledger.img heap.img
heap play <without.script >without
sed -e 1d -e '/^flip -> /d' -e '/^scan -> /d' beside | cmp - without && echo 'without flip and scan all other lines are the same'
