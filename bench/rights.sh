#!/usr/bin/env bash
# The rights of 200 million pages, with registers, bits and keys from a random-number generator that both programs run: a
# C program with the same masks, and a proved program that calls `access_rights::rights`, written into a temporary copy
# of that crate and the crates below it. Prints each one's median of five runs as a ratio to that of the C program; 5 ns
# a call make a second.
set -euo pipefail

bench=$(dirname "$(readlink -f "${BASH_SOURCE[0]}")")
top=$bench/..
work=$(mktemp -d)
trap 'rm -rf "$work"' EXIT

gcc -O2 -Wall -Wextra -o "$work/rights" "$bench/rights.c"

git init -q "$work"
mkdir -p "$work/crates/many_rights/src"
cp -r "$top"/crates/{paging_model,test_support,proc_regs,access_rights} "$work/crates"
grep -E '^(paging_model|test_support|proc_regs|access_rights):' "$top/crates.txt" >"$work/crates.txt"
echo 'many_rights: access_rights paging_model' >>"$work/crates.txt"
cat >"$work/crates/many_rights/src/main.rt" <<'SOURCE'
//! Takes the rights of many pages, and prints the sum of their numbers.
#![tactic(auto)]

use access_rights::rights;
use paging_model::entries::Bits;
use paging_model::registers::Regs;
use std::io;

const CALLS: u32 = 200_000_000;

fn main(rt: HostRuntime) -> io::Result<()> {
    let mut state = 1u64;
    let mut sum = 0u64;
    for _ in 0..CALLS {
        state = state
            .wrapping_mul(6364136223846793005)
            .wrapping_add(1442695040888963407);
        sum = sum.wrapping_add(number_of(state));
    }
    println!(rt; "{sum}")
}

// The number of the rights under registers and of a page made of a random number.
fn number_of(state: u64) -> u64 {
    let regs = Regs {
        cr0: state >> 8,
        cr3: 0,
        cr4: state >> 16,
        efer: 0,
        ac: state >> 48 & 1 == 1,
        pkru: (state >> 20 & 0xffff_ffff) as u32,
        pkrs: (state >> 24 & 0xffff_ffff) as u32,
    };
    let bits = Bits {
        write: state >> 60 & 1 == 1,
        user: state >> 61 & 1 == 1,
        xd: state >> 62 & 1 == 1,
    };
    u64::from(rights(&regs, bits, (state >> 56 & 15) as u8).number())
}
SOURCE
"$work/rights" >"$work/crates/many_rights/stdout"
said=$(cd "$work/crates/many_rights" && rt run </dev/null 2>&1) || { printf '%s\n' "$said" >&2; exit 1; }
program=$work/crates/many_rights/out/many_rights

# The two are to print the same sum.
cmp <("$work/rights") <("$program")

"$bench/ratios.py" rights.c "'$work/rights'" "rights" "'$program'"
