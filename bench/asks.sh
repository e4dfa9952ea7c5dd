#!/usr/bin/env bash
# A log of ten million `ask` lines over a core of real size, the answers written to a file:
#
#     asks.sh [CORE HEAD [LINES]]
#
# CORE is a core, and HEAD a log whose `machine` and `cpu` lines state its processors; its other lines aren't used.
# Without them make_core.c makes both. make_asks.c makes the log.
#
# Compares what the program and asks.c answer. Then times both, and `wc -l` of the log; and both without questions: with
# the state lines alone, and with comments besides, so that there is as much of a log to read. Prints the medians of
# five runs as ratios to those of asks.c, of `wc -l` and of the program, and the nanoseconds for each line of the log.
#
# Wants 1.5 GBytes of disk and 2 GBytes of memory.
set -euo pipefail

[ $# -eq 0 ] || [ $# -eq 2 ] || [ $# -eq 3 ] || { echo "usage: asks.sh [CORE HEAD [LINES]]" >&2; exit 2; }
bench=$(dirname "$(readlink -f "${BASH_SOURCE[0]}")")
top=$bench/..
work=$(mktemp -d)
trap 'rm -rf "$work"' EXIT

"$top/rights" run "$top/crates/rights/data/example.core" "$top/crates/rights/data/example.log" >/dev/null
program=$top/crates/rights/out/rights
for source in make_core make_asks asks; do
    gcc -O2 -Wall -Wextra -o "$work/$source" "$bench/$source.c"
done

core=${1:-$work/core}
lines=${3:-10000000}
if [ $# -eq 0 ]; then
    "$work/make_core" "$core" "$work/state"
else
    grep -E '^(machine|cpu) ' "$2" >"$work/state" || true
fi
"$work/make_asks" "$core" "$work/state" "$lines" >"$work/log"

# Comments of 8,192 bytes, as many bytes as the log has.
awk -v count=$(($(stat -c %s "$work/log") / 8192)) \
    'BEGIN { comment = sprintf("#%08190d", 0); while (count-- > 0) print comment }' | cat "$work/state" - >"$work/comments"

# The two are to write the same.
"$work/asks" "$core" "$work/log" >"$work/plain"
"$program" run "$core" "$work/log" >"$work/proved"
cmp "$work/plain" "$work/proved"

echo "$lines lines, $(stat -c %s "$work/log") bytes, over a core of $(stat -Lc %s "$core") bytes; the answers:"
awk '{ count[$1 == "granted" ? $1 : $1 " " $2]++ }
    END { for (answer in count) printf "    %5.1f %%  %s\n", 100 * count[answer] / NR, answer }' "$work/proved" | sort -rn

"$bench/ratios.py" --to asks.c --to "wc -l" --to "rights run" --each "$lines" \
    asks.c "'$work/asks' '$core' '$work/log' >'$work/plain'" \
    "wc -l" "wc -l '$work/log'" \
    "rights run" "'$program' run '$core' '$work/log' >'$work/proved'" \
    "asks.c, comments" "'$work/asks' '$core' '$work/comments' >'$work/plain'" \
    "rights run, comments" "'$program' run '$core' '$work/comments' >'$work/proved'" \
    "asks.c, state alone" "'$work/asks' '$core' '$work/state' >'$work/plain'" \
    "rights run, state alone" "'$program' run '$core' '$work/state' >'$work/proved'"
