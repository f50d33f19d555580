#!/bin/sh
# Plays each example and compares its output and exit status, and then what README.md, docs/LIBRARY.md and the pages here quote.
# It is no part of the gate.
#
#     examples/check.sh [--quick]
#
# With --quick the program is compiled with nothing proved. Each example has its heap in a temporary folder.
. "$(dirname "$0")/room.sh"
examples=$top/examples
out=$room/out err=$room/err failed=0
mkdir "$room/heaps"
cd "$room/heaps" || exit 1

# report NAME STATUS WANTED DIFFERS: whether the example went as it must, by the comparison's status too.
report() {
    if [ "$2" = "$3" ] && [ "$4" = 0 ]; then
        echo "ok      $1"
    else
        echo "WRONG   $1 (status $2, wanted $3)"
        failed=1
    fi
}

# made OUTPUT COMMAND..: the command writes what the file has, and ends with status 0.
made() {
    wanted=$1
    shift
    "$@" >"$out"
    status=$?
    cmp -s "$out" "$examples/$wanted"
    report "$wanted" "$status" 0 $?
}

# example OUTPUT SCRIPT WORDS..: the script on a new heap.
example() {
    wanted=$1 script=$2
    shift 2
    made "$wanted" heap play --fresh 1 "$@" <"$examples/$script"
}

# printed NAME: what the shell script of that name writes. It works in a folder of its own.
printed() {
    made "$1.out" "$examples/$1.sh" $quick
}

# ends_without_memory: where `rt run` has left that program in its crate, no end of a transaction lacks memory.
ends_without_memory() {
    program=$top/crates/ends_without_memory/out/ends_without_memory
    if [ -x "$program" ]; then
        "$examples/tools/refused.py" "$program" >"$out"
        report tools/refused.py $? 0 0
    fi
}

# complains ERROR STATUS LINES WORDS..: nothing on standard output, and these last lines on standard error.
complains() {
    wanted=$1 expected=$2 lines=$3
    shift 3
    "$top/heap" "$@" >"$out" 2>"$err"
    status=$?
    [ ! -s "$out" ] && tail -n "$lines" "$err" | cmp -s - "$examples/$wanted"
    report "$wanted" "$status" "$expected" $?
}

# quotes PAGE FILE [--notes | --from LINE]: the page has the lines of the file, indented by four blanks.
quotes() {
    page=$1 file=$2
    shift 2
    python3 "$examples/quoted.py" "$top/$page" "$examples/$file" "$@"
    report "$page quotes $file" $? 0 0
}

# tried NAME: what the crash lab prints of that script.
tried() {
    made "lab/$1.out" heap lab --pages 2 --log 8192 <"$examples/lab/$1.script"
}

# inspects: the inspector and the program agree on drawn images.
inspects() {
    "$examples/tools/inspected.py" $quick 60 >"$out"
    status=$?
    report "tools/heap_inspect: $(cat "$out")" "$status" 0 0
}

# is_unseen: drawn scripts are answered the same with collections and without, and come back from stops.
is_unseen() {
    "$examples/collections/unseen.py" $quick 8 >"$out"
    status=$?
    report "collections/unseen.py: $(cat "$out")" "$status" 0 0
}

# answers: a session answers a line that is no line too, and ends what it was left with. Where crates.txt has no session yet, none is tried.
answers() {
    grep -q '^heap_session' "$top/crates.txt" || return
    heap format 1 65536 1 >"$out"
    made sessions/answered.out heap session <"$examples/sessions/answered.script"
}

# names_itself: the launcher's version is of one line, and has the toolchain's.
names_itself() {
    "$top/heap" --version >"$out"
    status=$?
    [ "$(wc -l <"$out")" = 1 ] && grep -q "^heap .*, $(rt version)\$" "$out"
    report "heap --version" "$status" 0 $?
}

example basics/first.out basics/first.script
example basics/two_commits.out basics/two_commits.script
example crashes/transfer.out crashes/transfer.script
example crashes/stop_during_commit.out basics/first.script --stop 2
example crashes/stop_in_doubt.out basics/first.script --stop 3
example crashes/stop_after_commit.out basics/first.script --stop 4
example crashes/stop_during_second.out basics/two_commits.script --stop 6
example basics/abort.out basics/abort.script
example basics/refusals.out basics/refusals.script
example crashes/force_inside.out crashes/force_inside.script
example crashes/rolled_back.out crashes/force_inside.script --stop 8
example basics/flush.out basics/flush.script
example crashes/stopped_twice.out crashes/unended.script --stop 7 --again 2
example basics/list.out basics/list.script
example crashes/list_stopped.out basics/list.script --stop 6
example basics/cycle.out basics/cycle.script
example basics/lost.out basics/lost.script
example basics/volatile_full.out basics/volatile_full.script
example basics/exhausted.out basics/exhausted.script
example sessions/conflict.out sessions/conflict.script
example sessions/early_read.out sessions/early_read.script
example sessions/early_read_stopped.out sessions/early_read.script --stop 2
example sessions/losers.out sessions/losers.script
example sessions/losers_rolled_back.out sessions/losers.script --stop 8
example sessions/losers_stopped_twice.out sessions/losers.script --stop 7 --again 2
example collections/garbage.out collections/garbage.script
made basics/load.out heap load 1 2000 --fresh 64 </dev/null
printed basics/stored
printed basics/in_use
printed basics/full_heap
printed damage/spoiled
printed crashes/every_stop
tried late
tried queue
tried bank
printed sessions/threads
printed collections/beside
printed collections/cut_off
printed basics/refused
printed basics/advice
printed basics/checked

"$examples/basics/full_log.sh" | heap play --fresh 1 >"$out"
status=$?
tail -n 7 "$out" | cmp -s - "$examples/basics/full_log.out"
report basics/full_log.out "$status" 0 $?

complains basics/bad_line.err 3 2 $quick play --fresh 1 <"$examples/basics/bad_line.script"
complains basics/usage.err 2 3 $quick play --fresh 0 </dev/null
complains basics/help.err 2 4 </dev/null
complains basics/quick.err 2 4 --quick play --fresh 0 </dev/null
complains basics/no_command.err 2 3 grpah </dev/null
complains basics/no_command.err 2 3 graph --quick </dev/null
complains basics/no_command.err 2 3 $quick play --help </dev/null
complains basics/no_command.err 2 3 session now </dev/null
answers
names_itself
made launcher.out "$examples/launcher.py"
made signals.out "$examples/signals.py" $quick
made terminal.out "$examples/terminal.py" $quick

is_unseen
inspects
ends_without_memory
printed tools/remade
printed clients/python
printed clients/store
if command -v cc >/dev/null; then printed clients/c; fi
if command -v cc >/dev/null && [ -n "$quick" -o -f "$top/clients/lib/build/libstable_heap.a" ]; then printed clients/lib; fi
printed library/page

made basics/list.dot "$top/tools/graph_to_dot" <"$examples/basics/list.out"

quotes README.md basics/first.out --notes
quotes README.md crashes/every_stop.out
quotes README.md ../clients/python/first.py --from "def put() -> None:"
quotes docs/STORE.md ../clients/python/address_book.py --from "def add(store: Store, name: str, phone: str) -> None:"
quotes docs/STORE.md clients/store.out --from "Ada: 1815, 1852"
quotes docs/LIBRARY.md ../crates/thread_tests/src/bank.rt
quotes examples/README.md basics/stored.out
quotes examples/README.md basics/in_use.out
quotes examples/README.md basics/full_heap.out
quotes examples/README.md damage/spoiled.out
quotes examples/README.md crashes/transfer.script
quotes examples/README.md crashes/stopped_twice.out
quotes examples/README.md sessions/conflict.out --from "1 begin -> begun 2"
quotes examples/README.md sessions/early_read.out
quotes examples/README.md sessions/losers_stopped_twice.out --from "1 begin -> begun 2"
quotes examples/README.md sessions/threads.out
quotes examples/README.md basics/list.out --from "1 begin -> begun 3"
quotes examples/README.md basics/cycle.out --from "graph 3"
quotes examples/README.md collections/beside.out
quotes examples/README.md collections/cut_off.out --from "stop  the last event before it  what the next run is answered"
quotes examples/README.md basics/refused.out
quotes examples/README.md basics/list.dot

exit "$failed"
