#!/bin/sh
# Plays a script on a new heap once for each device call that it makes, with the disk stopped there, and prints a table of what is left.
#
#     examples/crashes/every_stop.sh [--quick] [SCRIPT]
#
# The script is transfer.script if it is left out. With --quick nothing is proved. Each heap is made in a folder of its own.
. "$(dirname "$0")/../room.sh"
script=$(realpath -- "${1:-$here/transfer.script}") || exit
cd "$room" || exit

# row N: reads what the program prints with --stop N.
row() {
    awk -v n="$1" '
        $1 == "force" && $3 == "durable" { acknowledged = $4 }
        $1 == "recovered" { recovered = $2 }
        inside { graph = graph (graph == "" ? "" : "; ") $0 }
        $1 == "graph" { inside = 1 }
        END { printf "%4s  %12d  %9d  %s\n", n, acknowledged, recovered, graph }'
}

printf '%4s  %12s  %9s  %s\n' stop acknowledged recovered graph
n=0 stopped=yes
while [ "$stopped" ]; do
    out=$(heap play --fresh 1 --stop "$n" <"$script") || exit
    stopped=$(printf '%s\n' "$out" | grep -e '-> stopped$')
    printf '%s\n' "$out" | row "$n"
    n=$((n + 1))
done
