#!/bin/sh
# What runseq costs by the number of commands, in instructions (valgrind's callgrind): a run of the first n commands of one list on 64 places,
# and the check of the same file alone, which is turned down at its last command. Needs the Rattle kit, by which makeseq and runseq are proved and
# built first, and valgrind.
set -eu
cd "$(dirname "$0")/.."
makeseq=$PWD/crates/makeseq/out/makeseq
runseq=$PWD/crates/runseq/out/runseq
work=$(mktemp -d)
trap 'rm -rf "$work"' EXIT

for program in makeseq runseq; do
    (cd "crates/$program" && rt run </dev/null) >"$work/log" 2>&1 || { cat "$work/log" >&2; exit 1; }
done

# One message stays and is shown; another is put in and taken out again; an audit in every 64 commands.
commands() {
    awk -v n="$1" 'BEGIN {
        print "places 64"; print "insert 1000"
        for (i = 2; i <= n; i++) {
            if (i % 64 == 0) print "audit"
            else if (i % 4 == 2) print "insert " i
            else if (i % 4 == 3) print "takeinx 2"
            else print "get 1 2"
        }
    }'
}

instructions() {
    valgrind --tool=callgrind --callgrind-out-file="$work/out" "$runseq" "$1" 2>"$work/said" >"$work/listing"
    sed -n 's/^==[0-9]*== Collected : *//p' "$work/said"
}

commands 1 | head -n 1 | "$makeseq" >"$work/empty.seq"
base=$(instructions "$work/empty.seq")
printf '%8s %14s %12s %14s %12s\n' commands run 'a command' check 'a command'
printf '%8d %14d %12s %14s %12s\n' 0 "$base" - - -
for n in 512 1024 2048 4095; do
    commands "$n" | "$makeseq" >"$work/run.seq"
    run=$(instructions "$work/run.seq")
    printf '\377' | dd of="$work/run.seq" bs=1 seek=$((8 + 16 * (n - 1))) conv=notrunc 2>/dev/null
    check=$(instructions "$work/run.seq")
    awk -v n="$n" -v b="$base" -v r="$run" -v c="$check" \
        'BEGIN { printf "%8d %14d %12.1f %14d %12.1f\n", n, r, (r - b) / n, c, (c - b) / n }'
done
