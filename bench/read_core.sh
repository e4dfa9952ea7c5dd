#!/usr/bin/env bash
# Reading a core of 1 GiB: `cat`, a C program that reads it into memory, and the program with an empty log.
# Prints each one's median of five runs as a ratio to that of `cat`. Wants 1 GiB of disk and 2 GiB of memory.
set -euo pipefail

bench=$(dirname "$(readlink -f "${BASH_SOURCE[0]}")")
top=$bench/..
work=$(mktemp -d)
trap 'rm -rf "$work"' EXIT

"$top/rights" run "$top/crates/rights/data/example.core" "$top/crates/rights/data/example.log" >/dev/null
"$top/tools/make_example.py" "$work/core" --segment-bytes $((1 << 30))
: >"$work/log"
gcc -O2 -Wall -Wextra -o "$work/read_core" "$bench/read_core.c"

# Once, so that the file is in the page cache.
cat "$work/core" >/dev/null

program=$top/crates/rights/out/rights
"$bench/ratios.py" \
    cat "cat '$work/core' >/dev/null" \
    read_core.c "'$work/read_core' '$work/core'" \
    "rights run" "'$program' run '$work/core' '$work/log'"
