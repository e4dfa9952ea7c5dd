#!/usr/bin/env bash
# Walks over a core of many segments, against walks over the same memory in one segment:
#
#     segments.sh [LINES]
#
# make_tables.c makes the core, of 256 MBytes that are nearly all page tables, and make_writes.c the log, of eight
# million `ask` lines over pages that are mapped. The memory is in one segment, in 1,000 and in 65,000; the 65,000 stand
# ascending, descending, and after a segment that has a part of their memory a second time.
#
# Compares what the program answers over each core with what asks.c answers over the first. Then times the program over
# each, with the log, with its state lines alone, and with a log whose addresses are refused before a walk. Prints the
# medians of five runs. For each core two differences follow: "lines" is what is left of the time without that for the
# state lines alone, which is that for the core, and "walks" what is left without that for lines that don't walk. The
# ratios are to these two of one segment; the nanoseconds are for each line of the log.
#
# Wants 2.5 GBytes of disk, and 2 GBytes of memory.
set -euo pipefail

[ $# -le 1 ] || { echo "usage: segments.sh [LINES]" >&2; exit 2; }
lines=${1:-8000000}
bench=$(dirname "$(readlink -f "${BASH_SOURCE[0]}")")
top=$bench/..
work=$(mktemp -d)
trap 'rm -rf "$work"' EXIT

"$top/rights" run "$top/crates/rights/data/example.core" "$top/crates/rights/data/example.log" >/dev/null
program=$top/crates/rights/out/rights
for source in make_tables make_writes asks; do
    gcc -O2 -Wall -Wextra -o "$work/$source" "$bench/$source.c"
done

frames=65536
cores=(one 1000 65000 65000-descending 65000-twice)
"$work/make_tables" "$work/one" "$work/state" $frames 1 ascending
"$work/make_tables" "$work/1000" "$work/state" $frames 1000 ascending
"$work/make_tables" "$work/65000" "$work/state" $frames 65000 ascending
"$work/make_tables" "$work/65000-descending" "$work/state" $frames 65000 descending
"$work/make_tables" "$work/65000-twice" "$work/state" $frames 65000 twice
"$work/make_writes" "$work/one" "$work/state" same 0 "$lines" >"$work/log"
sed '/^ask/s/ 0x/ 0x8000/' "$work/log" >"$work/refused"

# All are to write the same.
"$work/asks" "$work/one" "$work/log" >"$work/plain"
for core in "${cores[@]}"; do
    "$program" run "$work/$core" "$work/log" | cmp "$work/plain"
done
"$work/asks" "$work/one" "$work/refused" >"$work/plain"
"$program" run "$work/one" "$work/refused" | cmp "$work/plain"

commands=()
differences=()
for core in "${cores[@]}"; do
    for log in log state refused; do
        commands+=("$core, $log" "'$program' run '$work/$core' '$work/$log' >'$work/answers'")
    done
    differences+=(--less "$core, lines" "$core, log" "$core, state" --less "$core, walks" "$core, log" "$core, refused")
done
echo "$lines lines, $(stat -c %s "$work/log") bytes, over cores of $(stat -c %s "$work/one") bytes and more"
"$bench/ratios.py" --to "one, lines" --to "one, walks" --each "$lines" "${differences[@]}" "${commands[@]}"
