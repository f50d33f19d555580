#!/bin/sh
# Prints for each of some lines why it is refused, the line itself, and what the program says. A \t in a line stands
# for a tab, and a \r for a carriage return.
#
#     examples/basics/refused.sh [--quick]
. "$(dirname "$0")/../room.sh"
cd "$room" || exit

# row WHY LINE SAID
row() {
    printf '%-28s %-33s %s\n' "$1" "[$2]" "$3"
}

# bad WHY LINE: plays the line alone. It is outside of the grammar, so the program says so on standard error.
bad() {
    row "$1" "$2" "$(printf '%b\n' "$2" | heap play --fresh 1 2>&1 | head -n 1)"
}

# refused WHY LINE: plays the line in a transaction whose handle 0 holds the root. The heap refuses it in the third reply.
refused() {
    row "$1" "$2" "$(printf '1 begin\n1 root 0\n%s\n' "$2" | heap play --fresh 1 | sed -n '3s/.*-> //p')"
}

# locked WHY LINE: plays the line in session 2, whose handle 0 holds the root, into which session 1 has written.
locked() {
    row "$1" "$2" "$(printf '1 begin\n1 root 0\n1 put 0 0 7\n2 begin\n2 root 0\n%s\n' "$2" | heap play --fresh 1 | sed -n '6s/.*-> //p')"
}

bad 'a blank at the end' '1 begin '
bad 'a blank in front' ' 1 begin'
bad 'blanks alone' '  '
bad 'a tab' '1\tbegin'
bad 'a carriage return' '1 begin\r'
bad 'a comment' '# transfer'
bad 'a comment at the end' '1 begin # transfer'
bad 'a capital letter' '1 Begin'
bad 'session 0' '0 begin'
bad 'a session above 32' '33 begin'
bad 'a word too few' '1 put 0 0'
bad 'a sign' '1 put 0 0 -7'
bad 'more than 20 digits' '1 put 0 0 000000000000000000007'
bad '2^64 or more' '1 put 0 0 18446744073709551616'
bad 'no such word' '1 free 0'
refused 'a second begin' '1 begin'
refused 'too large for a field' '1 put 0 0 4611686018427387904'
refused 'a field that is not there' '1 put 0 4 7'
refused 'a handle that holds nothing' '1 put 1 0 7'
refused 'a handle above 63' '1 root 64'
refused 'a link to nothing' '1 link 0 0 1'
refused 'too many fields' '1 new 1 511'
refused 'a session with no begin' '2 root 0'
locked 'an object that is locked' '2 get 0 0 1'
