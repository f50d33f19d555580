#!/bin/sh
# Compiles the client for C, and tries it and its two examples. Where crates.txt has no session yet, a plain model of the heap stands in for it.
#
#     examples/clients/c.sh [--quick]
. "$(dirname "$0")/../room.sh"
. "$here/launcher.sh"
client=$top/clients/c

# compiled PROGRAM SOURCE
compiled() {
    cc -std=c99 -Wall -Wextra -Wpedantic -O1 -I"$client" -o "$1" "$2" "$client/stable_heap.c" || exit
}

compiled tests "$here/c_client.c"
compiled todo "$client/todo.c"
compiled bank "$client/bank.c"
mkdir tried list money
# (the launcher's words on standard error are not of the client)
if ./tests tried $HEAP 2>log; then echo "the tests pass"; else cat log; fi

todo() {
    ./todo list "$1" "$2" $HEAP 2>/dev/null
}

todo add 5 && todo add 6 && todo add 7 && todo done 6
echo "to do:" $(todo list 0)
./bank money 5 $HEAP 2>/dev/null
