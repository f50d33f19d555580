#!/bin/sh
# Turns printed graphs into scripts, plays these on new heaps, and says whether the new heaps have the same graphs.
#
#     examples/tools/remade.sh [--quick]
. "$(dirname "$0")/../room.sh"
cd "$room" || exit

# remade NAME [BYTES]: the graph in the file `graph`, by scripts of that many bytes.
remade() {
    rm -rf scripts heap.img
    "$top/tools/graph_to_script" scripts $2 <graph >commands || exit
    # The commands that it printed, for the program here.
    sed 's/^\.\/heap/heap/' commands >run
    . ./run >played || exit
    heap graph >again
    sed -n '/^graph /,$p' graph >wanted
    scripts=$(ls scripts | wc -l)
    if cmp -s again wanted; then same="the same graph"; else same="another graph"; fi
    refused=$(grep -c -v -E ' -> (begun|done|ref|sealed|durable)|^graph |^[0-9]+:|^formatted' played)
    echo "$1: $([ "$scripts" -gt 1 ] && echo "several plays" || echo "one play"), $refused refused, $same"
}

for name in basics/first basics/list basics/cycle sessions/losers; do
    cp "$top/examples/$name.out" graph
    remade "$name.out"
done
for seed in 1 2; do
    python3 "$top/examples/tools/drawn_graph.py" 300 "$seed" >graph
    remade "a drawn graph of 300 objects" 20000
done
