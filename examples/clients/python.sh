#!/bin/sh
# Tries the client for Python and its examples. Where crates.txt has no session yet, a plain model of the heap stands in for it; what the
# model answers is compared with what the program answers to the same lines.
#
#     examples/clients/python.sh [--quick]
. "$(dirname "$0")/../room.sh"
. "$here/launcher.sh"
export PYTHONDONTWRITEBYTECODE=1
client=$top/clients/python

if "$here/python_client.py" >log 2>&1; then echo "the tests pass"; else cat log; fi

{ "$client/first.py" put; } 2>log
echo "put, then status $?; read in another run: $("$client/first.py" read 2>/dev/null)"

todo() {
    "$client/todo.py" list "$@" 2>/dev/null
}

todo add 5 >log && todo add 6 >log && todo add 7 >log && todo done 6 >log
echo "to do: $(todo)"
"$client/bank.py" money 5 2>/dev/null

# The same lines, asked of the model and of the program.
HEAP=$here/stand_in.py HEAP_LINES=$room/answers "$client/bank.py" model 10 >log
heap format 4 1048576 1 >log
sed 's/ -> .*//' answers | heap play >played
head -n "$(wc -l <answers)" played | cmp -s - answers && echo "the program answers as the model does"
