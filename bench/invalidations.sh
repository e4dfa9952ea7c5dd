#!/usr/bin/env bash
# A log of ten million `invlpg`, `invpcid` and `set cr3` lines, by one processor and by 64 in turn:
#
#     invalidations.sh [LINES]
#
# Times it beside as many `ask` lines over a core of real size, and prints the medians of five runs as ratios to those.
# Then prints by how much the greatest resident size grows, beside 24 bytes for each line that removes something and 24
# for each stay in a PCID with a root: what a processor's past may take. Fails where it takes more, to 4 MBytes.
#
# Wants GNU time, 1.5 GBytes of disk and 2 GBytes of memory.
set -euo pipefail

bench=$(dirname "$(readlink -f "${BASH_SOURCE[0]}")")
top=$bench/..
lines=${1:-10000000}
work=$(mktemp -d)
trap 'rm -rf "$work"' EXIT

example=$top/crates/rights/data/example
"$top/rights" run "$example.core" "$example.log" >/dev/null
program=$top/crates/rights/out/rights
for source in make_core make_asks make_invalidations; do
    gcc -O2 -Wall -Wextra -o "$work/$source" "$bench/$source.c"
done

"$work/make_core" "$work/core" "$work/state"
"$work/make_asks" "$work/core" "$work/state" "$lines" >"$work/asks"
for processors in 1 64; do
    "$work/make_invalidations" "$processors" "$lines" >"$work/log$processors" 2>"$work/counts$processors"
    head -n $((processors + 1)) "$work/log$processors" >"$work/state$processors"
done

"$bench/ratios.py" --each "$lines" \
    "ask lines" "'$program' run '$work/core' '$work/asks'" \
    "invalidations by 1" "'$program' run '$work/core' '$work/log1'" \
    "invalidations by 64" "'$program' run '$work/core' '$work/log64'"

# The greatest resident size with a log, in KBytes.
resident() {
    command time -f %M -o "$work/resident" "$program" run "$work/core" "$1" >/dev/null
    cat "$work/resident"
}

for processors in 1 64; do
    read -r removals stays <"$work/counts$processors"
    without=$(resident "$work/state$processors")
    more=$(($(resident "$work/log$processors") - without))
    most=$((24 * (removals + stays) / 1024))
    echo "$processors processors: $removals lines remove something, $stays stays; $more KBytes more, of at most $most"
    [ "$more" -le $((most + 4096)) ]
done
