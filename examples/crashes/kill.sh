#!/bin/bash
# Plays a long script on a heap in a file, kills the program at a random moment, opens the heap again, and compares.
#
#     examples/crashes/kill.sh [--quick] [TIMES]
#
# TIMES is 100 if it is left out. It is no part of check.sh, and shows nothing of a loss of power: what a killed process wrote stays
# in the system's memory. Each transaction of session 1 writes its number into four fields. Session 2 has written into another object
# before the first of them, and never seals. So after each kill the four fields have to be one number, no less than the last one that
# was acknowledged and no more than one greater, and the other object is to be as it was. After each eighth transaction the pages of
# all these objects are flushed, with what session 2 has written; after each sixteenth a collection begins, and after each fourth comes a
# scan. TMPDIR says where the heap lies. The script has 9,800 transactions, near the longest that there can be; with --quick 1,000, since
# that program reads it slowly.
. "$(dirname "$0")/../room.sh"
times=${1:-100}
cd "$room" || exit
transactions=9800 log=2097152
[ -z "$quick" ] || transactions=1000 log=262144

# below MILLISECONDS: a random time, in seconds.
below() {
    printf '%d.%03d\n' $((SRANDOM % $1 / 1000)) $((SRANDOM % $1 % 1000))
}

# strike SEEN SECONDS WORDS..: runs the program and kills it, not the launcher, so long after its start, or with SEEN=line after its
# first line; says whether it was still running.
strike() {
    local launcher program seen=$1 delay=$2
    shift 2
    "$top/heap" $quick "$@" <&0 >out 2>/dev/null &
    launcher=$!
    until program=$(pgrep -P "$launcher" heap_shell); do
        kill -0 "$launcher" 2>/dev/null || break
    done
    while [ "$seen" = line ] && [ ! -s out ] && kill -0 "$launcher" 2>/dev/null; do
        sleep 0.01
    done
    sleep "$delay"
    [ "$program" ] && kill -KILL "$program" 2>/dev/null
    wait "$launcher" 2>/dev/null
    [ $? = 137 ]
}

# wrong WHY: ends with what is left of that run.
wrong() {
    cp -- heap.img out "${TMPDIR:-/tmp}"
    echo "WRONG in run $run: $1; ${TMPDIR:-/tmp}/heap.img is the heap and ${TMPDIR:-/tmp}/out what was printed"
    exit 1
}

heap format 1 "$log" 1 >out &&
    printf '1 begin\n1 root 0\n1 new 1 4\n1 new 2 1\n1 link 0 0 1\n1 link 0 1 2\n1 commit\n' | heap play >out &&
    cp heap.img seed || exit
{
    printf '2 begin\n2 root 0\n2 get 0 1 1\n2 put 1 0 666\n'
    seq "$transactions" | sed 's/.*/1 begin\n1 root 0\n1 get 0 0 1\n1 put 1 0 &\n1 put 1 1 &\n1 put 1 2 &\n1 put 1 3 &\n1 commit/; 0~8s/$/\nflush 0\nflush 1/; 0~16s/$/\nflip/; 0~4s/$/\nscan/'
} >script

run=0 all=0 in_doubt=0 rolled_back=0 cut_off=0 ended=0
while [ "$run" -lt "$times" ]; do
    run=$((run + 1))
    cp seed heap.img
    strike line "$(below 2000)" play <script || ended=$((ended + 1))
    acknowledged=$(sed -n 's/^force -> durable //p' out | tail -n 1)
    acknowledged=${acknowledged:-0}
    cksum <heap.img >before
    # Each second time the opening is killed too.
    if [ $((run % 2)) = 0 ]; then
        cp out played
        strike start "$(below 200)" graph && cut_off=$((cut_off + 1))
        mv played out
    fi
    heap graph >graph || wrong "the heap is not opened"
    cksum <heap.img | cmp -s - before || rolled_back=$((rolled_back + 1))
    heap graph | cmp -s - graph || wrong "a second opening prints another graph"
    read -r label a b c d <<<"$(sed -n 3p graph)"
    [ "$label $a $b $c" = "1: $b $c $d" ] || wrong "a transaction is torn: $(sed -n 3p graph)"
    [ "$(sed -n 4p graph)" = "2: -" ] || wrong "what was not committed is there: $(sed -n 4p graph)"
    [ "$a" != - ] || a=0
    [ "$a" -ge "$acknowledged" ] || wrong "$acknowledged commits were acknowledged, and $a came back"
    [ "$a" -le $((acknowledged + 1)) ] || wrong "$acknowledged commits were acknowledged, and $a came back"
    [ "$a" = "$acknowledged" ] || in_doubt=$((in_doubt + 1))
    all=$((all + acknowledged))
done
echo "$times runs were killed, of which $ended had ended before; $all commits were acknowledged, and all of them came back"
echo "one commit more came back $in_doubt times; an opening had something to roll back $rolled_back times, and was killed itself $cut_off times"
echo "no transaction was torn"
