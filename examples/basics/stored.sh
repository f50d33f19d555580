#!/bin/sh
# Makes a heap in a file, commits to it, and prints it, each in a run of its own; then goes on with what is there.
#
#     examples/basics/stored.sh [--quick]
. "$(dirname "$0")/../room.sh"
cd "$room" || exit

show format 1 65536 1
played first.script play
show graph
played more.script play
show graph
# The disk stops in the force of a third commit, and what is left is what the two before it have made.
played two_commits.script play --stop 2
show graph
