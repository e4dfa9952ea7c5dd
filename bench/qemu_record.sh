#!/usr/bin/env bash
# Records a Linux guest of QEMU by tools/qemu-record into a directory, as guest.core, guest.log and guest.pages:
#
#     qemu_record.sh DIR [CPU]
#
# CPU is QEMU's name of a processor model, with features. The default has four levels of page tables; `max` has five.
#
# At the record's end both processors' spaces are listed, and compared page by page with what QEMU's `info tlb` said of
# them then (guest_pages.py). First the same is done with the two kernels of examples/shootdown. It prints how many
# pages agreed, and fails where one differs.
#
# The guest is Debian's kernel with one program of ours. Its two threads run on two processors, in user mode. One of
# them maps pages and uses them, changes their rights and unmaps them. The record has a point after each of these steps:
# when a system call has come back, no processor may hold what was there before.
#
# PROGRAM in the environment is another program to try. Wants Debian with packages from the network, and root to install
# those that aren't there. KVM isn't used.
set -euo pipefail

[ $# -eq 1 ] || [ $# -eq 2 ] || { echo "usage: qemu_record.sh DIR [CPU]" >&2; exit 2; }
cpu=${2:-max,la57=off}
bench=$(dirname "$(readlink -f "${BASH_SOURCE[0]}")")
tools=$bench/../tools
program=$(readlink -f "${PROGRAM:-$bench/../rights}")
mkdir -p "$1"
into=$(readlink -f "$1")
work=$(mktemp -d)
trap 'rm -rf "$work"' EXIT
cd "$work"

export DEBIAN_FRONTEND=noninteractive
for need in qemu-system-x86_64:qemu-system-x86 cpio:cpio gcc:gcc lz4:lz4; do
    command -v "${need%%:*}" >/dev/null || apt-get install -qq -y --no-install-recommends "${need##*:}" >/dev/null
done

# Compares what a record says at its end with QEMU's own lists: compare PREFIX [OPTION]. The record is PREFIX.core and
# PREFIX.log, and PREFIX.pages has the lists. The option is one of tools/qemu-cpus.
compare() {
    # By QEMU's registers, and not by those that the record comes to: so a wrong one differs too. No key register is
    # shown, and none denies anything here.
    "$tools/qemu-cpus" --width 40 "${@:2}" "$1.pages" >stated 2>/dev/null
    printf 'list %s\n' 0 1 | tee -a stated | cat "$1.log" - >listed.log
    # The status 1 is that of a point that says no.
    "$program" run "$1.core" listed.log >answers || [ $? -eq 1 ]
    sed -n '/^areas /,$p' answers >listings
    python3 -B "$bench/guest_pages.py" "$1.pages" stated listings
}

"$bench/../examples/shootdown/build.sh" .
for kernel in forgets tells; do
    echo "the kernel $kernel"
    "$tools/qemu-record" $kernel.core $kernel.log $kernel.elf --pages $kernel.pages --memory 4 \
        -- -smp 2 -kernel $kernel.elf
    # QEMU's usual processor has no pages of 1 GByte.
    compare $kernel --no-1g
done

# The package of this name is empty; the kernel is in the one that it depends on. That one is unpacked, not installed.
kernel=$(apt-cache depends linux-image-cloud-amd64 | awk '$1 == "Depends:" { print $2; exit }')
apt-get download -qq -o APT::Sandbox::User=root "$kernel"
dpkg-deb -x "$kernel"_*.deb kernel
image=$(echo kernel/boot/vmlinuz-*)

# The kernel's ELF file stands compressed in its image, at a place that the image's head names. The four bytes after it
# are its length.
python3 - "$image" >vmlinux.lz4 <<'PYTHON'
import struct, sys
image = open(sys.argv[1], "rb").read()
offset, size = struct.unpack_from("<II", image, 0x248)
start = (image[0x1F1] + 1) * 512 + offset
sys.stdout.buffer.write(image[start : start + size - 4])
PYTHON
lz4 -dc vmlinux.lz4 >vmlinux

cat >init.c <<'SOURCE'
#define _GNU_SOURCE
#include <pthread.h>
#include <sched.h>
#include <string.h>
#include <sys/mman.h>

#define PAGES 4
enum { SIZE = PAGES * 4096, ROUNDS = 10 };

/* Places at which the recorder stops. */
__attribute__((noinline)) void record_start(void) { __asm__ volatile(""); }
__attribute__((noinline)) void record_point(void) { __asm__ volatile(""); }
__attribute__((noinline)) void record_end(void) { __asm__ volatile(""); }

static volatile int is_up;
static char *volatile page;

static void run_on(int processor)
{
    cpu_set_t set;
    CPU_ZERO(&set);
    CPU_SET(processor, &set);
    sched_setaffinity(0, sizeof set, &set);
}

/* Reads a page that stays mapped, so that its processor uses the same tables and never leaves them. */
static void *other(void *unused)
{
    run_on(1);
    is_up = 1;
    for (;;)
        (void)*(volatile char *)page;
    return unused;
}

int main(void)
{
    pthread_t thread;
    page = mmap(0, SIZE, PROT_READ | PROT_WRITE, MAP_PRIVATE | MAP_ANONYMOUS, -1, 0);
    run_on(0);
    pthread_create(&thread, 0, other, 0);
    while (!is_up)
        sched_yield();
    record_start();
    for (int round = 0; round < ROUNDS; round++) {
        char *mapped = mmap(0, SIZE, PROT_READ | PROT_WRITE, MAP_PRIVATE | MAP_ANONYMOUS, -1, 0);
        memset(mapped, 1, SIZE);
        /* A stop, so that the log has the pages with writes. */
        record_point();
        mprotect(mapped, SIZE / 2, PROT_READ);
        record_point();
        munmap(mapped, SIZE);
        record_point();
    }
    /* What stays, so that the spaces at the end aren't those of the start. */
    char *kept = mmap(0, SIZE, PROT_READ | PROT_WRITE, MAP_PRIVATE | MAP_ANONYMOUS, -1, 0);
    memset(kept, 1, SIZE);
    mprotect(kept, SIZE / 2, PROT_READ);
    record_end();
    for (;;)
        ;
}
SOURCE
gcc -O2 -Wall -Wextra -static -pthread -o init init.c
echo init | cpio --quiet -o -H newc >initramfs
place() { nm init | awk -v name="$1" '$3 == name { print "0x" $1 }'; }

# Without isolation of page tables, the kernel's text is mapped when the record starts in user mode.
echo "guest $cpu"
"$tools/qemu-record" "$into/guest.core" "$into/guest.log" vmlinux --memory 128 --timeout 300 \
    --pages "$into/guest.pages" \
    --start "$(place record_start)" --point "$(place record_point)" --end "$(place record_end)" \
    -- -cpu "$cpu" -smp 2 -nodefaults -kernel "$image" -initrd initramfs -append "nokaslr norandmaps pti=off"
compare "$into/guest"
