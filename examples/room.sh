# Read by the scripts here, of which each may have --quick as its first word: they then run the program with nothing proved.
# They work in a fresh folder, so that the heap.img of the caller's folder is left alone; it is removed when they end.
here=$(cd "$(dirname "$0")" && pwd) || exit
top=${here%/examples*}
quick=
if [ "$1" = --quick ]; then
    quick=--quick
    shift
fi
room=$(mktemp -d) || exit
trap 'rm -rf "$room"' EXIT
trap 'exit 1' HUP INT TERM

# heap WORDS..: the program, without what the launcher adds on standard error.
heap() {
    "$top/heap" $quick "$@" 2>"$room/said"
    status=$?
    grep -v '^heap: ' "$room/said" >&2
    return "$status"
}

# show WORDS..: the command, what the program writes, and its exit status where that is not 0.
show() {
    echo "> heap $*"
    heap "$@" 2>&1
    status=$?
    [ "$status" = 0 ] || echo "status $status"
}

# played SCRIPT WORDS..: the same, with that file of this folder as the script.
played() {
    script=$1
    shift
    echo "> heap $* < $script"
    heap "$@" <"$here/$script" 2>&1
    status=$?
    [ "$status" = 0 ] || echo "status $status"
}
