#!/bin/sh
# Programs that the compiler itself must refuse, before any proof: every edit in refused/, or the one that is named. An edit
# names a crate, one replacement in a file of it, and the one error that there is then: its name, and the text at which it
# stands. rt's own must-fail edits take only what the prover refuses.
set -u
root=$(cd "$(dirname "$0")/.." && pwd -P)
if [ $# -eq 0 ]; then
    printf '%s\0' "$root"/.ci/refused/*.edit | xargs -0 -n 1 -P 4 "$0"
    exit
fi

edit=$1 name=$(basename "$1" .edit)
work=$(mktemp -d) || exit 2
trap 'rm -rf "$work"' EXIT

field() { sed -n "s/^$1: //p" "$edit"; }

fail() {
    echo "$name: $1"
    tail -n 5 "$work/log" 2>/dev/null
    exit 1
}

# What the compiler reads, in a folder of its own.
mkdir "$work/crates" && cp "$root/crates.txt" "$work/" || exit 2
for crate in "$root"/crates/*; do
    mkdir "$work/crates/${crate##*/}" && cp -R "$crate/src" "$crate/specs" "$work/crates/${crate##*/}/" 2>/dev/null
done

# The replacement; what is printed is where the error has to stand, as LINE:COLUMN.
crate=$(field crate) file=$(field file)
place=$(
    OLD=$(field old) NEW=$(field new) AT=$(field at) awk -v edited="$work/crates/$crate/$file" '
        function once(part) {
            at = index(text, part)
            return part != "" && at && !index(substr(text, at + 1), part)
        }
        { text = text $0 "\n" }
        END {
            if (!once(ENVIRON["OLD"])) exit 1
            text = substr(text, 1, at - 1) ENVIRON["NEW"] substr(text, at + length(ENVIRON["OLD"]))
            if (!once(ENVIRON["AT"])) exit 1
            line = split(substr(text, 1, at), before, "\n")
            print line ":" length(before[line])
            printf "%s", text >edited
        }' "$root/crates/$crate/$file"
) || fail "its old text, or the place of the error, does not stand exactly once in $file"

# A library is tried by its tests.
if [ -e "$root/crates/$crate/src/main.rt" ]; then tests=; else tests=--test; fi
if (cd "$work/crates/$crate" && rt try $tests </dev/null) >"$work/log" 2>&1; then fail "not refused"; fi
error="$file:$place: error[$(field error)]"
grep -qF "$error" "$work/log" || fail "not refused as it must be, by $error"
[ "$(grep -c 'error\[' "$work/log")" -eq 1 ] || fail "refused by more than one error"
echo "refused by the compiler, as it must be: $name ($(field error) at '$(field at)')"
