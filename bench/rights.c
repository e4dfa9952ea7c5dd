/* Takes the rights of many pages, and prints the sum of their numbers. */
#include <stdbool.h>
#include <stdint.h>
#include <stdio.h>

enum { CALLS = 200000000 };

struct regs {
    uint64_t cr0, cr3, cr4, efer;
    bool ac;
    uint32_t pkru, pkrs;
};

struct bits {
    bool write, user, xd;
};

static bool bit(uint64_t number, int index)
{
    return number >> index & 1;
}

/* Bits from the lowest: user read, write and fetch, supervisor read, write and fetch, implicit read and write. */
static uint8_t rights(const struct regs *regs, struct bits bits, int key)
{
    uint8_t writes = bit(regs->cr0, 16) ? 0x92 : 0x02;
    uint32_t user_keys = bit(regs->cr4, 22) ? regs->pkru : 0;
    uint32_t supervisor_keys = bit(regs->cr4, 24) ? regs->pkrs : 0;
    uint32_t disable = (bits.user ? user_keys : supervisor_keys) >> 2 * key;
    uint8_t refused = 0;

    if (!bits.user)
        refused |= 0x07;
    if (bits.user && bit(regs->cr4, 20))
        refused |= 0x20;
    if (bits.user && bit(regs->cr4, 21))
        refused |= regs->ac ? 0xc0 : 0xd8;
    if (!bits.write)
        refused |= writes;
    if (bits.xd)
        refused |= 0x24;
    if (disable & 1)
        refused |= 0xdb;
    if (disable & 2)
        refused |= writes;
    return ~refused;
}

int main(void)
{
    uint64_t state = 1, sum = 0;

    for (int i = 0; i < CALLS; i++) {
        state = state * 6364136223846793005u + 1442695040888963407u;
        struct regs regs = {
            .cr0 = state >> 8,
            .cr4 = state >> 16,
            .ac = bit(state, 48),
            .pkru = (uint32_t)(state >> 20),
            .pkrs = (uint32_t)(state >> 24),
        };
        struct bits bits = {bit(state, 60), bit(state, 61), bit(state, 62)};
        sum += rights(&regs, bits, state >> 56 & 15);
    }
    printf("%lu\n", sum);
    return 0;
}
