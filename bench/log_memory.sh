#!/usr/bin/env bash
# The memory that a log takes: the greatest resident size of the program with a log of 256 MBytes, the longest that it
# accepts, and with an empty log, both over the core of the example. Prints the two and the difference, and fails where
# that is more than 16 MBytes. Wants GNU time, and 256 MBytes of disk.
set -euo pipefail

bench=$(dirname "$(readlink -f "${BASH_SOURCE[0]}")")
top=$bench/..
work=$(mktemp -d)
trap 'rm -rf "$work"' EXIT

core=$top/crates/rights/data/example.core
"$top/rights" run "$core" "$top/crates/rights/data/example.log" >/dev/null
program=$top/crates/rights/out/rights

# The greatest resident size with a log, in KBytes.
resident() {
    command time -f %M -o "$work/resident" "$program" run "$core" "$1" >/dev/null
    cat "$work/resident"
}

# Lines of 32 bytes, so that the last one is whole.
head -c $((256 << 20)) < <(yes 'ask 00000 ur 0x0000000000001234') >"$work/log"
: >"$work/empty"

empty=$(resident "$work/empty")
full=$(resident "$work/log")
more=$((full - empty))
most=$((16 << 10))
echo "an empty log           $empty KBytes"
echo "a log of 256 MBytes    $full KBytes"
echo "difference             $more KBytes, of at most $most"
[ "$more" -le "$most" ]
