#!/usr/bin/env bash
# Times the run of listings beside plain.c: in process, many runs of a listing (pace), and as whole programs (factrun). Fails
# where the two print different things. Of the turns that are taken most apply a rule, and the time of a run is divided by
# all that are taken; it includes making the run, for which Rattle alone checks the jobs anew each time. Wants the programs
# pace and factrun, as rt ci leaves them in crates/NAME/out.
set -euo pipefail
root=$(cd "$(dirname "$0")/.." && pwd -P)
pace=$root/crates/pace/out/pace
factrun=$root/crates/factrun/out/factrun
runs=2000
processes=500
work=$(mktemp -d)
trap 'rm -rf "$work"' EXIT
cc -O3 -o "$work/plain" "$root/bench/plain.c"
TIMEFORMAT='%U %S'

# seconds COMMAND..: user and system time of the command, which reads the listing.
seconds() {
    { time "$@" <"$work/listing" >"$work/out" 2>/dev/null; } 2>&1 | awk '{ print $1 + $2 }'
}

each_process() {
    for ((i = 0; i < processes; i++)); do
        "$1" <"$work/listing"
    done
}

for kind in adds waits busy; do
    python3 "$root/bench/listing.py" "$kind" >"$work/listing"
    "$work/plain" <"$work/listing" >"$work/plain.out"
    "$factrun" <"$work/listing" | cmp "$work/plain.out" -
    read -r applied idle < <("$work/plain" 1 <"$work/listing" 2>&1 >/dev/null)
    c=$(seconds "$work/plain" $runs)
    cp "$work/out" "$work/plain.out"
    rattle=$(seconds "$pace" $runs)
    cmp "$work/plain.out" "$work/out"
    c_whole=$(seconds each_process "$work/plain")
    rattle_whole=$(seconds each_process "$factrun")
    awk -v kind="$kind" -v applied="$applied" -v idle="$idle" -v runs=$runs -v processes=$processes \
        -v c="$c" -v r="$rattle" -v cw="$c_whole" -v rw="$rattle_whole" 'BEGIN {
        printf "%s: of %d turns %d apply a rule; in process %.1f ns a turn in C and %.1f ns in Rattle; whole program %.2f ms in C and %.2f ms in Rattle\n",
            kind, applied + idle, applied, c * 1e9 / runs / (applied + idle), r * 1e9 / runs / (applied + idle), cw * 1e3 / processes, rw * 1e3 / processes }'
done
