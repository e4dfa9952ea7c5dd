/* What the programs share that make a core: memory with page tables in it, and the headers of the file. */
#include <stdbool.h>
#include <stdint.h>
#include <stdio.h>
#include <stdlib.h>
#include <string.h>

#include "random_numbers.h"

enum { TABLE = 4096, FILE_HEADER = 64, PROGRAM_HEADER = 56 };

static const uint64_t PRESENT = 1, WRITABLE = 2, USER = 4;
static const uint64_t USED = 0x60; /* accessed and dirty */

/* ---- Memory ---- */

/* From physical address 0 on. The number of frames is a power of 2. */
static unsigned char *memory;
static uint64_t frames;

static inline uint64_t *entry_at(uint64_t address)
{
    return (uint64_t *)(memory + address);
}

/* Takes memory of so many frames, with random bytes in it. */
static inline bool take_memory(uint64_t count)
{
    frames = count;
    memory = malloc(frames * TABLE);
    if (memory == NULL)
        return false;
    for (uint64_t place = 0; place < frames * TABLE; place += 8)
        *entry_at(place) = random_number();
    return true;
}

/* A table of zeros in a frame that no table has yet, at 2 MBytes or above. */
static inline uint64_t new_table(void)
{
    static uint64_t count;
    uint64_t frame;
    do
        frame = ++count * 40503 % frames; /* odd, so that no frame comes twice */
    while (frame < 512);
    memset(memory + frame * TABLE, 0, TABLE);
    return frame * TABLE;
}

/* Where the entry of a level stands for a linear address. Tables that are wanted on the way are made. */
static inline uint64_t *entry_for(uint64_t root, uint64_t linear, int level)
{
    uint64_t table = root;
    for (int above = 4;; above--) {
        uint64_t *entry = entry_at(table + 8 * (linear >> (3 + 9 * above) & 511));
        if (above == level)
            return entry;
        if (*entry == 0)
            *entry = new_table() | PRESENT | WRITABLE | USED | (linear >> 63 ? 0 : USER);
        table = *entry & 0xffffffffff000;
    }
}

/* ---- Headers ---- */

static inline void put(unsigned char *bytes, size_t size, uint64_t number)
{
    memcpy(bytes, &number, size);
}

/* The header of a core whose program headers stand right behind it. */
static inline void put_file_header(unsigned char *bytes, uint64_t headers)
{
    memcpy(bytes, "\177ELF\2\1\1", 7);
    put(bytes + 16, 2, 4);
    put(bytes + 18, 2, 62);
    put(bytes + 20, 4, 1);
    put(bytes + 32, 8, FILE_HEADER);
    put(bytes + 52, 2, FILE_HEADER);
    put(bytes + 54, 2, PROGRAM_HEADER);
    put(bytes + 56, 2, headers);
}

static inline void put_header(unsigned char *header, uint64_t kind, uint64_t offset, uint64_t start, uint64_t size)
{
    put(header, 4, kind);
    put(header + 8, 8, offset);
    put(header + 24, 8, start);
    put(header + 32, 8, size);
    put(header + 40, 8, size);
}
