#!/usr/bin/env bash
# Writes to memory, and walks over memory that was written to:
#
#     writes.sh [LINES [WRITES]]
#
# make_tables.c makes cores that are nearly all page tables, and make_writes.c the logs.
#
# First, LINES `ask` lines over pages that are mapped, eight million where it isn't said, alone and after writes to
# 100,000 tables. The core has 512 MBytes. What is written is what is there, so the answers are the same; most reads of
# a walk are then of a page that was written to. "walks" is what is left of the time without that for the same log less
# its `ask` lines. The ratios are to the walks without writes, of the program and of writes.c.
#
# Then, WRITES `write` lines of eight bytes, a million where it isn't said, to one table, to 1,000 and to 100,000, and
# 10,000 `ask` lines that go by the entries that were written. The core is of 64 MBytes, and for 100,000 tables of 512.
# Against the program stands writes.c, which reads the same lines, applies the same rules and keeps the same pages; and
# writes.c with `keep`, which also keeps what each slot held before each write, as the program does. "lines" is what is
# left of the time without that for the state lines alone, which is that for the core. The ratios are to the time of
# writes.c, to its time for the lines, and to both with `keep`.
#
# Compares what the program and the plain ones answer. Prints the medians of five runs, and the nanoseconds for each
# `ask` line of the first part, and for each `write` line of the second.
#
# Wants 1.5 GBytes of disk, and 2 GBytes of memory.
set -euo pipefail

[ $# -le 2 ] || { echo "usage: writes.sh [LINES [WRITES]]" >&2; exit 2; }
lines=${1:-8000000}
writes=${2:-1000000}
bench=$(dirname "$(readlink -f "${BASH_SOURCE[0]}")")
top=$bench/..
work=$(mktemp -d)
trap 'rm -rf "$work"' EXIT

"$top/rights" run "$top/crates/rights/data/example.core" "$top/crates/rights/data/example.log" >/dev/null
program=$top/crates/rights/out/rights
for source in make_tables make_writes asks writes; do
    gcc -O2 -Wall -Wextra -o "$work/$source" "$bench/$source.c"
done

core=$work/core
state=$work/state

# Stops where the program and a plain one answer a log otherwise: same NAME LOG
same() {
    "$work/$1" "$core" "$2" >"$work/plain"
    "$program" run "$core" "$2" | cmp "$work/plain"
}

timed() { printf "'%s' run '%s' '%s' >'%s'" "$program" "$core" "$1" "$work/answers"; }
timed_plain() { printf "'%s' '%s' '%s' $2 >'%s'" "$work/writes" "$core" "$1" "$work/answers"; }

"$work/make_tables" "$core" "$state" 131072 1 ascending
"$work/make_writes" "$core" "$state" same 0 "$lines" >"$work/walks"
"$work/make_writes" "$core" "$state" same 100000 "$lines" >"$work/written"
"$work/make_writes" "$core" "$state" same 100000 0 >"$work/alone"

# The two ask the same, and are answered the same.
cmp "$work/walks" <(sed '/^write /d' "$work/written")
same asks "$work/walks"
mv "$work/plain" "$work/answers"
same writes "$work/written"
cmp "$work/plain" "$work/answers"

echo "$lines walks, with no written page and with 100,000:"
"$bench/ratios.py" --to "none, walks" --to "writes.c, walks" --each "$lines" \
    --less "none, walks" "none" "none, state" \
    --less "100,000, walks" "100,000" "100,000, writes" \
    --less "writes.c, walks" "writes.c, none" "writes.c, state" \
    --less "writes.c, 100,000 walks" "writes.c, 100,000" "writes.c, writes" \
    "none" "$(timed "$work/walks")" \
    "none, state" "$(timed "$state")" \
    "100,000" "$(timed "$work/written")" \
    "100,000, writes" "$(timed "$work/alone")" \
    "writes.c, none" "$(timed_plain "$work/walks" "")" \
    "writes.c, state" "$(timed_plain "$state" "")" \
    "writes.c, 100,000" "$(timed_plain "$work/written" "")" \
    "writes.c, writes" "$(timed_plain "$work/alone" "")"
rm "$work/walks" "$work/written" "$work/alone"

for pages in 1 1000 100000; do
    "$work/make_tables" "$core" "$state" $((pages > 1000 ? 131072 : 16384)) 1 ascending
    "$work/make_writes" "$core" "$state" new $pages "$writes" 10000 >"$work/log"
    same writes "$work/log"
    echo
    echo "$writes writes, to $pages of the tables:"
    "$bench/ratios.py" --to "writes.c" --to "its lines" --to "keep" --to "keep, lines" --each "$writes" \
        --less "its lines" "writes.c" "writes.c, state" \
        --less "keep, lines" "keep" "writes.c, state" \
        --less "rights run, lines" "rights run" "rights run, state" \
        "writes.c" "$(timed_plain "$work/log" "")" \
        "keep" "$(timed_plain "$work/log" keep)" \
        "rights run" "$(timed "$work/log")" \
        "writes.c, state" "$(timed_plain "$state" "")" \
        "rights run, state" "$(timed "$state")"
done
