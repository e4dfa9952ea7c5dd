#!/usr/bin/env bash
# Builds both kernels into a directory, as forgets.elf and tells.elf:
#
#     build.sh DIR
#
# It needs gcc and binutils for x86-64, and nothing else.
set -euo pipefail

[ $# -eq 1 ] || { echo "usage: build.sh DIR" >&2; exit 2; }
here=$(dirname "$(readlink -f "${BASH_SOURCE[0]}")")
mkdir -p "$1"

# Code for 64-bit mode without a system: no libraries, no stack below the stack pointer, no vector registers.
flags=(-O2 -Wall -Wextra -ffreestanding -fno-pie -no-pie -fno-stack-protector -fcf-protection=none
    -fno-asynchronous-unwind-tables -mno-red-zone -mgeneral-regs-only -nostdlib -static -Wl,--build-id=none
    -T "$here/kernel.ld")
gcc "${flags[@]}" -o "$1/forgets.elf" "$here/boot.S" "$here/kernel.c"
gcc "${flags[@]}" -DTELLS -o "$1/tells.elf" "$here/boot.S" "$here/kernel.c"
