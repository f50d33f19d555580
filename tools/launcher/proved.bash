# Part of the launcher heap: proves the program's crates, and links it.

minutes() {
    local n=$((SECONDS / 60))
    if [ "$n" = 1 ]; then echo "1 minute"; else echo "$n minutes"; fi
}

# How many crates are proved at once. Each takes a processor, and 0.5 to 2 GB or, seldom, up to 4.
at_once() {
    local most processors
    processors=$(nproc 2>/dev/null) || processors=1
    most=$(awk '/^MemAvailable:/ { print int($2 / 3000000) }' /proc/meminfo 2>/dev/null)
    [ "${most:=1}" -le "$processors" ] || most=$processors
    [ "$most" -ge 1 ] || most=1
    echo "$most"
}

# start_in_crate COMMAND..: starts a command in the program's crate, and keeps what it says.
start_in_crate() {
    cd -- "$top/crates/$program" || return
    start "$@" </dev/null >>"$kept/log" 2>&1 9>&-
    cd -- "$OLDPWD" || return
}

# proving RT: the crates that are being proved now.
proving() {
    pgrep -P "$1" -fa -- ' --crate-name ' 2>/dev/null | sed -n 's/.* --crate-name \([a-z0-9_]*\) .*/\1/p' | paste -s -d , | sed 's/,/, /g'
}

# progress RT ALL: how far it is. With the word --only rt just reads all crates, at the beginning.
progress() {
    local done now
    if pgrep -P "$1" -f -- ' --crate-name .* --only' >/dev/null 2>&1; then
        echo "still reading all $2 crates; $(minutes) so far"
        return
    fi
    done=$(grep -c '^== ' "$kept/log") now=$(proving "$1")
    echo "$done of $2 crates proved${now:+, still proving $now}; $(minutes) so far"
}

# watch RT ALL: says each minute how far it is, as long as the launcher is there, and ends rt once a crate is refused, since rt would first
# prove all that doesn't stand on that one.
watch() {
    local next=$((SECONDS + 60))
    trap - HUP INT QUIT TERM
    while read -r -t 1 <> <(:) || kill -0 $$ 2>/dev/null; do
        if grep -q '^logic=not-proved' "$kept/log"; then
            kill "$1" 2>/dev/null
            return
        fi
        [ "$SECONDS" -ge "$next" ] || continue
        say "$(progress "$@")"
        next=$((SECONDS + 60))
    done
}

# prove ALL N: proves the crates, at most N at once, each when those that it stands on are done.
prove() {
    local watcher status
    : >"$kept/log"
    start_in_crate rt all check --jobs "$2" || return
    watch "$child" "$1" 9>&- &
    watcher=$!
    finish
    status=$?
    kill "$watcher" 2>/dev/null
    wait "$watcher" 2>/dev/null
    return "$status"
}

# Links the program, which is run on words that are no command, since a command would touch a heap.
link_program() {
    start_in_crate rt run -- --none || return
    finish
    tail -n 1 -- "$kept/log" | grep -q -e '^usage: ' -e '^not a heap'
}

# Proves the program's crates, and links it.
build() {
    local all most
    all=$(crates | wc -l) most=$(at_once)
    say "proving $all crates before the first run, $most at once; this takes many minutes"
    if ! prove "$all" "$most"; then
        # A check that was killed lacked memory, most likely.
        [ -z "$signal" ] && grep -q ': failed (-9)$' "$kept/log" || return 1
        say "a check was killed, most likely for memory: once more, one crate at a time"
        prove "$all" 1 || return
    fi
    link_program
}

# The end of the log, without what was proved.
refusal() {
    awk '
        /: proved$|^logic=proved |^checked |^(statements|library|logic|crate) |: ok$|: not run, / { next }
        /begins with what a check kept|imports that nothing uses|removes those imports/ { next }
        /^== / { heading = $0 "\n"; next }
        { printf "%s%s\n", heading, $0; heading = "" }' "$kept/log" | tail -n 30
}

# refresh SUM: builds the program from the sources of that sum, where it is not there.
refresh() {
    is_built "$kept" "$1" && return
    needs_rt
    if ! build; then
        ends_by_signal
        refusal >&2
        fail "the program was not proved and built; all that was said is in $kept/log"
    fi
    [ "$(sources)" = "$1" ] || fail "the sources changed while the program was built; start again"
    keep "$top/crates/$program/out/$program" "$kept" "$1" || fail "the program can't be kept in $kept"
    say "proved and built after $(minutes)"
}
