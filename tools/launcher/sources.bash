# Part of the launcher heap: what the program is proved and built from, and whether a program that was kept is of just that.

# The program's crate and all that it stands on, each after those below it.
crates() {
    awk -F: -v program="$program" '
        function visit(name,    count, at, deps) {
            if (!(name in below) || name in seen) return
            seen[name] = 1
            count = split(below[name], deps, " ")
            for (at = 1; at <= count; at++) visit(deps[at])
            print name
        }
        /^[a-z]/ { split($1, words, " "); below[words[1]] = $2 }
        END { visit(program) }' "$top/crates.txt"
}

# lines_of CRATE..: what crates.txt says of these.
lines_of() {
    local IFS='|'
    grep -E "^($*)[ :]" crates.txt
}

# One checksum over all that the program is proved and built from, and nothing else: an edit of a test changes it not.
sources() (
    cd -- "$top" || exit 1
    mapfile -t all < <(crates)
    folders=("${all[@]/#/crates/}")
    {
        lines_of "${all[@]}"
        find HANDLES "${folders[@]/%//src}" "${folders[@]/%//specs}" "${folders[@]/%//proofs}" -type f -print0 2>/dev/null |
            LC_ALL=C sort -z | xargs -0 sha256sum
    } | sha256sum
)

# is_built WHERE SUM
is_built() {
    [ -x "$1/$program" ] && [ "$(cat -- "$1/$program.sources" 2>/dev/null)" = "$2" ]
}

# keep PROGRAM WHERE SUM: the sum is written last, so that a build that was cut off counts for nothing.
keep() {
    mkdir -p -- "$2" &&
        rm -f -- "$2/$program.sources" &&
        cp -- "$1" "$2/$program.new" &&
        mv -f -- "$2/$program.new" "$2/$program" &&
        printf '%s\n' "$3" >"$2/$program.sources"
}

needs_rt() {
    command -v rt >/dev/null || fail "the toolchain's command rt is not on the PATH; README.md says how to get it"
}

# alone COMMAND..: of two launchers that find something to build, one builds and the other waits.
alone() {
    exec 9>"$kept/lock" || fail "nothing can be written in $kept"
    if ! beside flock 9; then
        ends_by_signal
        fail "another launcher's build can't be waited for"
    fi
    "$@"
    exec 9>&-
}
