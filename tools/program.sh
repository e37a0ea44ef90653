#!/bin/sh
# Runs a program of this repository: program.sh NAME ARGUMENT.. It is proved and built first where it is missing or older than a source.
root=$(cd "$(dirname "$0")/.." && pwd -P) || exit 2
name=$1
shift
program=$root/crates/$name/out/$name
if [ ! -x "$program" ] || [ -n "$(find "$root/crates" "$root/crates.txt" -name out -prune -o -newer "$program" -type f -print | head -n 1)" ]; then
    # The kit proves, links and then runs; its status is the program's own. An older program is taken away first, so that
    # one is there afterwards only where all was proved.
    rm -f "$program"
    (cd "$root/crates/$name" && rt run </dev/null >/dev/null) >&2
    [ -x "$program" ] || exit 2
fi
exec "$program" "$@"
