#!/usr/bin/env bash
# Listings of spaces as large as a listing takes, against list.c:
#
#     list.sh [CORE HEAD]
#
# make_spaces.c makes the cores: one area of 2,097,152 pages, as many areas of a page each, and as many pages by 19
# tables that are used 4,354 times. CORE is another core, and HEAD a log whose `machine` and `cpu` lines state its
# processors, as those of qemu_core.sh; processor 0 is listed.
#
# Compares what the program and list.c list, of these and of small random tables, for which tools/slow_listing.py has a
# slow walker. Then times both, with a log of 20 `list` lines: of 2,000 for CORE, and of one where each page is an area;
# and with the state lines alone. "Listings" is what is left of the time without that for the state lines. Prints the
# medians of five runs, as ratios to the whole time of list.c and to that of its listings.
#
# Times the program over spaces that are too large by one page and by one use of a table besides, against those that are
# just as large as can be. And prints how much more memory it takes at most with a listing than without, and fails where
# that is more than a MByte for one area, or more than 200 MBytes for 2,097,152.
#
# Wants GNU time, 500 MBytes of disk, and a GByte of memory.
set -euo pipefail

[ $# -eq 0 ] || [ $# -eq 2 ] || { echo "usage: list.sh [CORE HEAD]" >&2; exit 2; }
bench=$(dirname "$(readlink -f "${BASH_SOURCE[0]}")")
top=$bench/..
work=$(mktemp -d)
trap 'rm -rf "$work"' EXIT

"$top/rights" run "$top/crates/rights/data/example.core" "$top/crates/rights/data/example.log" >/dev/null
program=$top/crates/rights/out/rights
for source in make_spaces list; do
    gcc -O2 -Wall -Wextra -o "$work/$source" "$bench/$source.c"
done

# Small random tables first: what the program, list.c and a slow walker in Python list.
python3 -B "$top/tools/slow_listing.py" --runs 1000 --beside "$work/list" "$program"

# The state lines of a space, and two logs: `once` has one `list` line, `log` as many as are timed.
logs_of() {
    local space=$1 lines=$2 line
    cp "$work/$space.state" "$work/$space.once"
    cp "$work/$space.state" "$work/$space.log"
    echo 'list 0' >>"$work/$space.once"
    for ((line = 0; line < lines; line++)); do echo 'list 0'; done >>"$work/$space.log"
}

spaces=(one apart shared)
for space in one apart shared pages-over uses uses-over; do
    "$work/make_spaces" "$work/$space.core" "$work/$space.state" "$space"
    logs_of "$space" "$([ "$space" = apart ] && echo 1 || echo 20)"
done
if [ $# -eq 2 ]; then
    ln -s "$(readlink -f "$1")" "$work/guest.core"
    grep -E '^(machine|cpu) ' "$2" >"$work/guest.state"
    logs_of guest 2000
    spaces+=(guest)
fi

# The two are to write the same.
for space in "${spaces[@]}" pages-over uses uses-over; do
    "$work/list" "$work/$space.core" "$work/$space.once" >"$work/plain"
    "$program" run "$work/$space.core" "$work/$space.once" >"$work/proved"
    cmp "$work/plain" "$work/proved"
    echo "$space: $(head -n 1 "$work/proved"), over a core of $(stat -Lc %s "$work/$space.core") bytes"
done

for space in "${spaces[@]}"; do
    echo "$space, $(grep -c list "$work/$space.log") listings"
    "$bench/ratios.py" --to list.c --to listings \
        --less listings list.c "list.c, state alone" \
        --less "listings, rights run" "rights run" "rights run, state alone" \
        list.c "'$work/list' '$work/$space.core' '$work/$space.log' >'$work/plain'" \
        "rights run" "'$program' run '$work/$space.core' '$work/$space.log' >'$work/proved'" \
        "list.c, state alone" "'$work/list' '$work/$space.core' '$work/$space.state' >'$work/plain'" \
        "rights run, state alone" "'$program' run '$work/$space.core' '$work/$space.state' >'$work/proved'"
done

echo "too large, 20 listings"
for pair in "one pages-over" "uses uses-over"; do
    commands=()
    for space in $pair; do
        commands+=("$space" "'$program' run '$work/$space.core' '$work/$space.log' >'$work/proved'")
    done
    "$bench/ratios.py" "${commands[@]}"
done

# The greatest resident size of the program over a space with a log, in KBytes.
resident() {
    command time -f %M -o "$work/resident" "$program" run "$work/$1.core" "$work/$1.$2" >/dev/null
    cat "$work/resident"
}

fits=true
for limit in "one 1024" "apart 204800"; do
    read -r space most <<<"$limit"
    more=$(($(resident "$space" once) - $(resident "$space" state)))
    echo "$space: $more KBytes more than without a listing, of at most $most"
    [ "$more" -le "$most" ] || fits=false
done
$fits
