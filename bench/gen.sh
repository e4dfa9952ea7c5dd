#!/usr/bin/env bash
# `gen` with 10,000 and with 100,000 lines, for several seeds:
#
#     gen.sh [SEED..]
#
# Without seeds they are 1, 7, 12,345 and 2,147,483,647. For each it first sees that what `gen` prints is counted from
# what `run` answers over the files of tools/slow_gen.py, which was written apart from the project's code. Then it prints
# the medians of five runs: ten times 10,000 lines and once 100,000, less as many runs with one line. So the ratio is
# that of the times for an event, and the nanoseconds are those for each. At last it prints the greatest resident sizes.
#
# Wants GNU time, and 10 MBytes of disk.
set -euo pipefail

bench=$(dirname "$(readlink -f "${BASH_SOURCE[0]}")")
top=$bench/..
work=$(mktemp -d)
trap 'rm -rf "$work"' EXIT

example=$top/crates/rights/data/example
"$top/rights" run "$example.core" "$example.log" >/dev/null
program=$top/crates/rights/out/rights
[ $# -gt 0 ] || set -- 1 7 12345 2147483647

# A run that ends with 0 or 1: of a point that says no the status is 1.
answers() { "$@" || [ $? = 1 ]; }

# Stops where what is printed isn't counted from the answers: same SEED LINES
same() {
    python3 -B "$top/tools/slow_gen.py" "$1" "$2" "$work"
    answers "$program" run "$work/generated.core" "$work/generated.log" >"$work/answers"
    answers "$program" gen "$1" "$2" >"$work/proved"
    python3 -B "$top/tools/slow_gen.py" --counts "$work/generated.log" "$work/answers" | cmp - "$work/proved"
}

# So many runs in a row: several COUNT SEED LINES
several() { printf "for run in {1..%d}; do '%s' gen %s %s || [ \$? = 1 ]; done" "$1" "$program" "$2" "$3"; }

# The greatest resident size with a seed and so many lines, in KBytes.
resident() {
    answers command time -q -f %M -o "$work/resident" "$program" gen "$1" "$2" >/dev/null
    cat "$work/resident"
}

for seed; do
    echo "seed $seed"
    for lines in 10000 100000; do same "$seed" "$lines"; done
    paste -sd ',' "$work/proved" | sed 's/^/    /; s/,/, /g'
    "$bench/ratios.py" --each 100000 --to "10,000 lines, 10 times" \
        --less "10,000 lines, 10 times" "10,000" "1 line, 10 times" \
        --less "100,000 lines" "100,000" "1 line" \
        "10,000" "$(several 10 "$seed" 10000)" \
        "100,000" "$(several 1 "$seed" 100000)" \
        "1 line, 10 times" "$(several 10 "$seed" 1)" \
        "1 line" "$(several 1 "$seed" 1)" | grep lines
done

for seed; do
    echo "seed $seed: $(resident "$seed" 1) KBytes with one line, $(resident "$seed" 10000) with 10,000," \
        "$(resident "$seed" 100000) with 100,000"
done
