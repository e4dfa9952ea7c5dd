#!/usr/bin/env bash
# Compares what the program lists of guests' cores with what QEMU lists of the guests itself, page by page:
#
#     guest_spaces.sh [CPU ...]
#
# Each CPU is QEMU's name of a processor model, with features. Without one there are two: `max,la57=off`, which has four
# levels of page tables, and `max`, which has five.
#
# For each it takes a core of a guest of two processors (qemu_core.sh), checks it, has tools/core-cpus state its
# processors, and sees that tools/qemu-cpus states the same ones by the monitor's text. Then both processors' spaces are
# listed, and compared with the monitor's `info tlb` (guest_pages.py). It prints how many pages agreed, and fails where
# one differs.
#
# PROGRAM in the environment is another program to try. Wants what qemu_core.sh wants, and 600 MBytes of disk.
set -euo pipefail

[ $# -gt 0 ] || set -- max,la57=off max
bench=$(dirname "$(readlink -f "${BASH_SOURCE[0]}")")
top=$bench/..
program=${PROGRAM:-$top/rights}
work=$(mktemp -d)
trap 'rm -rf "$work"' EXIT

for cpu; do
    echo "guest $cpu"
    "$bench/qemu_core.sh" "$work" "$cpu"
    "$program" check "$work/guest.core"
    # The width that QEMU's own processors have. Key registers are left at 0, which denies nothing: `info tlb` doesn't
    # show the keys of pages.
    "$top/tools/core-cpus" --width 40 "$work/guest.core" >"$work/log" 2>/dev/null
    # Of EFER the core doesn't have SCE, which Linux sets.
    "$top/tools/qemu-cpus" --width 40 "$work/guest.monitor" 2>/dev/null | sed 's/ 0xd01 / 0xd00 /' >"$work/lines"
    grep -v '^#' "$work/log" | diff "$work/lines" - || { echo "qemu-cpus and core-cpus differ" >&2; exit 1; }
    printf 'list 0\nlist 1\n' >>"$work/log"
    "$program" run "$work/guest.core" "$work/log" >"$work/answers"
    python3 -B "$bench/guest_pages.py" "$work/guest.monitor" "$work/log" "$work/answers"
done
