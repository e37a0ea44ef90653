#!/bin/sh
# Runs factrun as its user does: the examples with what they print, the status of a refused listing, and its words.
# After rt ci the program is there; else it is built first.
set -u
root=$(cd "$(dirname "$0")/.." && pwd -P)
out=$(mktemp) err=$(mktemp) longer=$(mktemp)
trap 'rm -f "$out" "$err" "$longer"' EXIT

fail() {
    echo "factrun: $1"
    exit 1
}

# expect NAME STATUS LINES WORD..: factrun's status with these words, and how many lines it prints.
expect() {
    name=$1 status=$2 lines=$3
    shift 3
    "$root/factrun" "$@" <"$input" >"$out" 2>"$err"
    got=$?
    [ "$got" -eq "$status" ] || fail "$name: status $got and not $status"
    [ "$(wc -l <"$out")" -eq "$lines" ] || fail "$name: not $lines lines"
}

"$root/factrun" --version </dev/null >"$out" 2>"$err" || fail "it cannot be built: $(tail -n 3 "$err")"
for input in "$root"/examples/*.listing; do
    expected=${input%.listing}.output
    case $(head -c 1 "$expected") in !) status=1 ;; *) status=0 ;; esac
    expect "${input##*/}" "$status" "$(wc -l <"$expected")"
    cmp -s "$out" "$expected" && [ ! -s "$err" ] || fail "${input##*/}: prints something else"
done
# The largest listing that there can be, and a byte more.
{ cat "$root/examples/largest.listing" && printf T; } >"$longer"
[ "$(wc -c <"$longer")" -eq 65537 ] || fail "examples/largest.listing has not 65,536 bytes"
input=$longer
expect "65,537 bytes" 1 1
[ "$(cat "$out")" = '!         13          1          1' ] || fail "65,537 bytes: prints something else"
input=/dev/null
expect --help 0 1 --help
expect --version 0 1 --version
expect "an unknown word" 1 0 --unknown
[ -s "$err" ] || fail "an unknown word: nothing said"
echo "factrun does what its users see: the examples, the status of faults, --help, --version"
