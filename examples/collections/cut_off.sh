#!/bin/sh
# A crash in the middle of a collection, and one in the recovery from it; the heap goes on collecting. Then a stop at each call.
#
#     examples/collections/cut_off.sh [--quick]
. "$(dirname "$0")/../room.sh"
cd "$room" || exit

# short: rows of the graph without all the nulls at their ends.
short() {
    sed 's/\( -\)\{8,\}$/ - ../'
}

# scans: what the scans of a new run are answered.
scans() {
    heap play <"$here/scans.script" | sed -n 's/^scan -> //p' | paste -s -d ',' - | sed 's/,/, /g'
}

heap format 4 65536 1 >out
heap play <"$here/ledger.script" >out
cp heap.img ledger.img
played cut_off.script play --stop 11 --again 2 | short
echo '> tools/heap_inspect heap.img, in part'
"$top/tools/heap_inspect" heap.img | grep -e '^space' -e '^collection' -e '^objects' -e '^garbage'
played scans.script play | short

echo 'stop  the last event before it  what the next run is answered'
n=0 stopped=yes
while [ "$stopped" ]; do
    cp ledger.img heap.img
    out=$(heap play --stop "$n" <"$here/cut_off.script") || exit
    stopped=$(printf '%s\n' "$out" | grep -e '-> stopped$')
    before=$(printf '%s\n' "$out" | grep -e '^flip' -e '^scan' | tail -n 1)
    printf '%4s  %-24s  %s\n' "$n" "$before" "$(scans)"
    n=$((n + 1))
done
