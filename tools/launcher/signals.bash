# Part of the launcher heap: what it runs beside itself gets the signals that come to it.

# What the launcher has started, the signal that has not gone on to it, and the last one that came.
child='' caught='' signal=''

pass_on() {
    caught=$1 signal=$1
    [ -z "$child" ] || kill -s "$1" "$child" 2>/dev/null
}

trap 'pass_on HUP' HUP
trap 'pass_on INT' INT
trap 'pass_on QUIT' QUIT
trap 'pass_on TERM' TERM

# start COMMAND..: starts a command. A signal to the launcher goes on to it.
start() {
    # (a shell starts what runs beside it deaf to INT and QUIT)
    (trap - INT QUIT && exec "$@") <&0 &
    child=$!
    [ -z "$caught" ] || kill -s "$caught" "$child" 2>/dev/null
}

# Waits for what was started, and gives its status.
finish() {
    local status again
    # (a shell says by itself that what it waited for was killed: explain has a plainer text)
    wait "$child" 2>/dev/null
    status=$?
    # A signal cuts a wait short. A wait for what has been waited for already answers 127, or -1 where the signal came as
    # the command ended.
    while [ -n "$caught" ]; do
        caught=''
        wait "$child" 2>/dev/null
        again=$?
        [ "$again" -lt 0 ] || [ "$again" = 127 ] || status=$again
    done
    child=''
    [ "$status" -ge 0 ] || status=$(signal_status)
    return "$status"
}

# beside COMMAND..: runs a command and gives its status.
beside() {
    start "$@"
    finish
}

signal_status() {
    echo $((128 + $(kill -l "$signal")))
}

ends_by_signal() {
    [ -z "$signal" ] || exit "$(signal_status)"
}
