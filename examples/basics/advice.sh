#!/bin/sh
# Runs the launcher where the program can't do what it is asked, and prints its exit status and what the launcher adds for a user.
#
#     examples/basics/advice.sh [--quick]
. "$(dirname "$0")/../room.sh"
cd "$room" || exit

# advised WHY WORDS..
advised() {
    echo "$1"
    shift
    "$top/heap" $quick "$@" >out 2>err
    echo "  status $?"
    grep '^heap: ' err | grep -v PROVED | sed 's/^heap: /  /'
}

advised 'no file' graph </dev/null
echo 'a text' >heap.img
advised 'a file that is no heap' graph
rm heap.img
mkdir heap.img
advised 'a folder' graph
rmdir heap.img
mkfifo heap.img
advised 'no regular file' graph
rm heap.img
ln -s nothing/heap.img heap.img
advised 'a link to nothing' graph
rm heap.img

"$top/heap" $quick format 1 65536 1 >out 2>err
exec 9<heap.img
flock 9
advised 'another run' graph
exec 9<&-
echo '1 commmit' >script
advised 'a line that is no line' play <script
"$top/heap" $quick play <"$here/first.script" >out 2>err
printf '\041' | dd of=heap.img bs=1 seek=65 conv=notrunc 2>err
advised 'a spoiled byte' graph
advised 'no command' grpah

echo 'an output that has no room'
"$top/heap" $quick play --fresh 1 <"$here/first.script" >/dev/full 2>err
echo "  status $?"
grep '^heap: ' err | grep -v PROVED | sed 's/^heap: /  /'

echo 'a file that may not grow so large'
(ulimit -f 8 && "$top/heap" $quick format 4 262144 1) 2>err
echo "  status $?"
grep -v PROVED err | sed 's/^heap: /  /'
