#!/usr/bin/env bash
# Points in logs, and what their time grows with:
#
#     audit.sh [ROUNDS]
#
# make_points.c makes the cores, the logs, and what the points are to be answered. A log has points at its end, as many
# as take half a second or so. What is compared is the time for one of them: that of the log, less that of the same log
# without points, by their number. The parts:
#
#   listings        `list` lines in place of the points of the next one
#   unchanged       74,240 pages in full tables; nothing was written since the processor lost all that it held
#   written         the same after 1,000 writes to 100 tables
#
#   asks            ten times as many `ask` lines as the next one has events
#   often           ROUNDS rounds of 100 events, 1,000 where it isn't said. Each begins with an invalidation of
#                   everything, and each tenth event is a point. Of both, the time is that for an event, less that for
#                   the state lines
#
#   flips N         the accessed bit of an entry of the top table changed N times
#   processors N    so many of them
#   PCIDs N         so many of them, each with a space of its own; `point current` and `point all`
#
# What the time grows with comes last. There are 5,120 pages, 100 writes to 10 tables, one PCID, one processor and no
# invalidation since all was lost; and one of these numbers at a time at three sizes.
#
# Before it is timed, each log is run with one point, both where nothing is stale and where the last page is; and the
# answers are compared. Prints the medians of five runs, as ratios to the first time of a part.
#
# Wants 200 MBytes of disk.
set -euo pipefail

[ $# -le 1 ] || { echo "usage: audit.sh [ROUNDS]" >&2; exit 2; }
rounds=${1:-1000}
bench=$(dirname "$(readlink -f "${BASH_SOURCE[0]}")")
top=$bench/..
work=$(mktemp -d)
trap 'rm -rf "$work"' EXIT

"$top/rights" run "$top/crates/rights/data/example.core" "$top/crates/rights/data/example.log" >/dev/null
program=$top/crates/rights/out/rights
for source in make_points make_asks; do
    gcc -O2 -Wall -Wextra -o "$work/$source" "$bench/$source.c"
done

# How many points, lists or events the log of a name has.
declare -A counts

make() { "$work/make_points" "$work/$1.core" "$work/$1.log" "$work/$1.answers" "${@:2}"; }

# Stops where the points of a log aren't answered as they are to be: same NAME
same() {
    local status=0
    "$program" run "$work/$1.core" "$work/$1.log" >"$work/proved" || status=$?
    [ "$status" -eq "$(grep -q 'point no' "$work/$1.answers" && echo 1 || echo 0)" ]
    grep -E '^(point|cpu) ' "$work/proved" | cmp - "$work/$1.answers"
}

# A log with so many points, whose answers are as they are to be: points NAME COUNT PARAMETER..
points() {
    local name=$1 count=$2 stale
    for stale in 1 0; do
        make "$name" "${@:3}" stale=$stale
        same "$name"
    done
    counts[$name]=$count
    make "$name" "${@:3}" points="$count"
    sed '/^point /d' "$work/$name.log" >"$work/$name.without"
}

# Another log over the core of one, of so many lines: beside NAME OTHER COUNT
beside() {
    counts[$2]=$3
    ln "$work/$1.core" "$work/$2.core"
    cp "$work/$1.without" "$work/$2.without"
}

timed() { printf "'%s' run '%s' '%s' >'%s' || [ \$? = 1 ]" "$program" "$work/$1.core" "$work/$1.$2" "$work/answers"; }

# Times logs against the first of them: compare NAME..
compare() {
    local name commands=() differences=()
    for name; do
        commands+=("$name, log" "$(timed "$name" log)" "$name, without" "$(timed "$name" without)")
        differences+=(--one "$name" "$name, log" "$name, without" "${counts[$name]}")
    done
    "$bench/ratios.py" --to "$1" "${differences[@]}" "${commands[@]}" | grep -vE '^.*, (log|without) '
    for name; do rm "$work/$name".*; done
    echo
}

echo "points over 74,240 pages, and listings"
points unchanged 1000000 leaves=74240
points written 2000 leaves=74240 writes=1000 tables=100
beside unchanged listings 1000
cp "$work/listings.without" "$work/listings.log"
seq 1000 | sed 's/.*/list 0/' >>"$work/listings.log"
compare listings unchanged written

events=$((100 * rounds))
echo "$events events, of which each tenth is a point, and ten times as many questions"
make often rounds="$rounds" leaves=8192
same often
counts[often]=$events
grep -E '^(machine|cpu) ' "$work/often.log" >"$work/often.without"
beside often asks $((10 * events))
"$work/make_asks" "$work/often.core" "$work/often.without" $((10 * events)) >"$work/asks.log"
compare asks often

echo "points after so many changes of an accessed bit"
for flips in 25000 50000 100000; do points "flips $flips" 400 flips=$flips; done
compare "flips 25000" "flips 50000" "flips 100000"

echo "points with so many processors"
points "processors 1" 50000 processors=1 writes=10
points "processors 64" 1000 processors=64 writes=10
compare "processors 1" "processors 64"

echo "points with so many PCIDs"
points "PCIDs 1" 10000 writes=100
points "PCIDs 16, current" 100 writes=100 pcids=16
points "PCIDs 16, all" 10 writes=100 pcids=16 all=1
compare "PCIDs 1" "PCIDs 16, current" "PCIDs 16, all"

# Three sizes of one parameter, each with its number of points: grows PARAMETER SIZE COUNT SIZE COUNT SIZE COUNT
grows() {
    local parameter=$1 names=()
    shift
    while [ $# -gt 0 ]; do
        points "$parameter $1" "$2" writes=100 tables=10 all=1 "$parameter=$1"
        names+=("$parameter $1")
        shift 2
    done
    compare "${names[@]}"
}

echo "points, and what their time grows with"
grows leaves 5120 10000 20480 10000 81920 10000
grows writes 100 10000 1000 1000 10000 100
grows pcids 1 10000 4 100 16 10
grows processors 1 10000 8 2000 64 500
grows events 1000 5000 10000 2000 100000 500
