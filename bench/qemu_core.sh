#!/usr/bin/env bash
# Takes a core of a Linux guest of QEMU, with its registers, into a directory:
#
#     qemu_core.sh DIR [CPU]
#
# CPU is QEMU's name of a processor model, with features. The default has four levels of page tables; `max` has five.
#
# The guest is Debian's kernel with one program of ours. It runs as two processes, on two processors and in user mode.
# Each maps a page of each kind, and one of them says where they are. The guest has 512 MBytes, and so has the core.
# DIR gets
#
#     guest.core      the core
#     guest.monitor   what the monitor said: `info registers -a`, and QEMU's own list of the pages of each processor,
#                     by `info tlb`
#     guest.console   what the guest said: the addresses of its pages, and PKRU where it has protection keys
#     guest.log       `machine` and `cpu` lines by tools/qemu-cpus, and questions about the guest's pages
#
# Wants Debian with packages from the network, and root to install those that aren't there. KVM isn't used.
set -euo pipefail

[ $# -eq 1 ] || [ $# -eq 2 ] || { echo "usage: qemu_core.sh DIR [CPU]" >&2; exit 2; }
cpu=${2:-max,la57=off}
tools=$(dirname "$(readlink -f "${BASH_SOURCE[0]}")")/../tools
mkdir -p "$1"
into=$(readlink -f "$1")
work=$(mktemp -d)
guest=
trap '[ -z "$guest" ] || kill "$guest" 2>/dev/null || true; rm -rf "$work"' EXIT
cd "$work"

export DEBIAN_FRONTEND=noninteractive
for need in qemu-system-x86_64:qemu-system-x86 cpio:cpio gcc:gcc; do
    command -v "${need%%:*}" >/dev/null || apt-get install -qq -y --no-install-recommends "${need##*:}" >/dev/null
done
# The package of this name is empty; the kernel is in the one that it depends on. That one is unpacked, not installed.
kernel=$(apt-cache depends linux-image-cloud-amd64 | awk '$1 == "Depends:" { print $2; exit }')
apt-get download -qq -o APT::Sandbox::User=root "$kernel"
dpkg-deb -x "$kernel"_*.deb kernel

cat >init.c <<'SOURCE'
#define _GNU_SOURCE
#include <stdio.h>
#include <sys/mman.h>
#include <unistd.h>

/* Maps a page and writes to it, so that it is in memory, and then gives it a protection. */
static void *page(const char *name, int protection)
{
    char *at = mmap(0, 4096, PROT_READ | PROT_WRITE, MAP_PRIVATE | MAP_ANONYMOUS, -1, 0);
    at[0] = 1;
    mprotect(at, 4096, protection);
    printf("page %s %p\n", name, (void *)at);
    return at;
}

/* A page under a protection key that denies writes, and the register that says so. */
static void keyed_page(void)
{
    int key = pkey_alloc(0, PKEY_DISABLE_WRITE);
    if (key < 0)
        return;
    pkey_mprotect(page("keyed", PROT_READ | PROT_WRITE), 4096, PROT_READ | PROT_WRITE, key);
    unsigned low, high;
    __asm__ volatile("rdpkru" : "=a"(low), "=d"(high) : "c"(0));
    printf("pkru 0x%x\n", low);
}

int main(void)
{
    /* The pages are mapped behind the fork, so that neither process shares them. The second one says nothing. */
    if (fork() == 0)
        close(1);
    page("read-write", PROT_READ | PROT_WRITE);
    page("read-only", PROT_READ);
    page("code", PROT_READ | PROT_EXEC);
    page("none", PROT_NONE);
    keyed_page();
    puts("ready");
    for (;;)
        ;
}
SOURCE
gcc -O2 -Wall -Wextra -static -o init init.c
echo init | cpio --quiet -o -H newc >initramfs

mkfifo commands
: >"$into/guest.console"
qemu-system-x86_64 -accel tcg -cpu "$cpu" -smp 2 -m 512 -nodefaults -display none \
    -kernel kernel/boot/vmlinuz-* -initrd initramfs -append "console=ttyS0 nokaslr norandmaps" \
    -serial "file:$into/guest.console" -monitor stdio <commands >"$into/guest.monitor" &
guest=$!
exec 3>commands
for ((tries = 0; tries < 240; tries++)); do
    if grep -q '^ready' "$into/guest.console" || ! kill -0 "$guest" 2>/dev/null; then break; fi
    sleep 0.5
done
grep -q '^ready' "$into/guest.console" || { echo "the guest didn't start" >&2; exit 1; }
# By then the second process has mapped its pages too.
sleep 2
cat >&3 <<COMMANDS
stop
info registers -a
dump-guest-memory $work/guest.core
info tlb
cpu 1
info tlb
quit
COMMANDS
exec 3>&-
wait "$guest"
guest=
mv -f guest.core "$into"
chmod 644 "$into/guest.core"

# The lines of the console end with CR and LF.
said() { tr -d '\r' <"$into/guest.console" | awk -v word="$1" '$1 == word { print $NF }'; }
keys=()
for value in $(said pkru); do
    keys=(--pkru "0=$value" --pkru "1=$value")
done
{
    # The width that QEMU's own processors have.
    "$tools/qemu-cpus" --width 40 "${keys[@]}" "$into/guest.monitor"
    for address in $(said page); do
        printf 'ask 0 %s %s\n' ur "$address" uw "$address" ux "$address" sr "$address"
    done
} >"$into/guest.log"
