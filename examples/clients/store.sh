#!/bin/sh
# Tries the store of the Python client, and its example. Most of it is over a model of the heap in Python's own process; what needs a file is over the program.
#
#     examples/clients/store.sh [--quick]
. "$(dirname "$0")/../room.sh"
. "$here/launcher.sh"
export PYTHONDONTWRITEBYTECODE=1
client=$top/clients/python

# passes NAME WHAT: that script ends with status 0; what it says comes only where it doesn't.
passes() {
    if "$here/store/$1" >"$1.log" 2>&1; then echo "$2"; else cat "$1.log"; fi >"$1.said"
}

{
    passes cpython.py "CPython's own tests of dicts and lists pass: of no store, each call a transaction, and all in one"
    "$here/store/drawn.py" 10 >drawn.said 2>&1
} &
passes interrupted.py "an interrupt at any place leaves the store closed, or with what the heap holds" &
passes promises.py "what the page of the store promises holds"
"$here/store/kills.py" 5 >kills.said 2>kills.log || cat kills.log
wait
cat cpython.py.said drawn.said interrupted.py.said promises.py.said kills.said

book() {
    "$client/address_book.py" book "$@" 2>said
}

book add Ada 1815
book add Grace 1906
book add Ada 1852
book crash Alan 1912
echo "killed in a transaction: status $?"
book list
