#!/usr/bin/env bash
# Starts the proved program. Where it isn't there yet, or a source is newer, runs the unproved build, and says so.
#   ./arc replay < examples/smallest-life.arc
#   ./arc --prove     proves the program and the crates below it, which takes long; `rt ci` leaves the proved program, too
set -u
top=$(cd "$(dirname "${BASH_SOURCE[0]}")" && pwd)
program=$top/crates/arc/out/arc
needed_mb=3000

say() { echo "arc: $*" >&2; }

is_proved() {
    [ -x "$program" ] && [ -z "$(find "$top/crates" "$top/crates.txt" -newer "$program" \
        \( -name '*.rt' -o -name '*.antt' -o -name crates.txt \) -not -path '*/out/*' -print -quit)" ]
}

can_build() {
    if ! command -v rt > /dev/null; then
        say "the Rattle kit's command 'rt' isn't on the PATH; README.md says what is needed"
        return 1
    fi
    local free_mb
    free_mb=$(awk '/^MemAvailable:/ { print int($2 / 1024) }' /proc/meminfo 2> /dev/null)
    if [ -n "$free_mb" ] && [ "$free_mb" -lt "$needed_mb" ]; then
        say "building wants $needed_mb MB of free memory, and this machine has $free_mb MB"
        return 1
    fi
}

# The crates that the program stands on, and the program itself.
crates_below() {
    awk -F: '!/^#/ && NF == 2 { below[$1] = $2 }
        function walk(name,   list, n, i) {
            if (!(name in below) || (name in seen)) return
            seen[name]; n = split(below[name], list, " ")
            for (i = 1; i <= n; i++) walk(list[i])
            print name
        }
        END { walk("arc") }' "$top/crates.txt"
}

# Says every ten seconds how far the work of process $1 is, by the words that $2 prints, and ends with its status.
watch() {
    local pid=$1 start=$SECONDS said=0
    while kill -0 "$pid" 2> /dev/null; do
        sleep 0.2
        if [ $(((SECONDS - start) / 10)) -gt "$said" ]; then
            said=$(((SECONDS - start) / 10))
            say "$("$2"), $((SECONDS - start)) s so far"
        fi
    done
    wait "$pid"
}

building() { echo "building $(crates_below | wc -l) crates without proof"; }

proving() {
    local done=0 all=0 name
    for name in $(crates_below); do
        all=$((all + 1))
        [ -e "$top/crates/$name/out/rlib" ] && done=$((done + 1))
    done
    echo "proving, $done of $all crates done"
}

prove() {
    local log
    log=$(mktemp)
    say "proving the program and the $(($(crates_below | wc -l) - 1)) crates below it"
    # The program is run once at the end, with no words: its usage answer is not wanted here.
    (cd "$top/crates/arc" && exec rt run > "$log" 2>&1 < /dev/null) &
    watch $! proving
    if ! [ -x "$program" ]; then
        say "the proof failed; its last lines:"
        tail -n 20 "$log" >&2
        return 1
    fi
    touch "$program"
    rm -f "$log"
    say "proved and built"
}

# `rt try` keeps no file, passes standard input on, and ends with the program's status.
run_unproved() {
    local log status
    log=$(mktemp)
    say "the proved program isn't there yet (rt ci makes it): running the unproved build, which takes about a minute"
    (cd "$top/crates/arc" && exec rt try -- "$@" 2> "$log") <&0 &
    watch $! building
    status=$?
    if ! tail -n 1 "$log" | grep -q '^run=ended'; then
        say "the unproved build gave no answer:"
        grep -v '^|' "$log" | tail -n 5 >&2
        status=70
    fi
    rm -f "$log"
    return $status
}

if [ "${1-}" = --prove ]; then
    can_build && prove || exit 70
    exit 0
fi
is_proved && exec "$program" "$@"
can_build || exit 70
trap 'kill $(jobs -p) 2> /dev/null; exit 130' INT TERM
run_unproved "$@"
