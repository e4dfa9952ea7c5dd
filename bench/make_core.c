/* Writes a core of 512 MBytes, and the state lines of its two processors: make_core CORE HEAD

   The page tables are shaped as those of Linux with two processes: one kernel, which both share, and in each process a
   program, a heap, libraries, mappings and a stack. Tables lie scattered through memory, and pages anywhere. What is in
   the pages is random, always the same. As in a core of QEMU, there are notes that state nothing, and a segment for the
   256 KBytes of firmware below 4 GBytes. */
#include "core_file.h"

enum { FRAMES = 131072, NOTE_BYTES = 360, NOTES = 2, HEADERS = 3, FIRMWARE_BYTES = 256 * 1024 };

static const uint64_t MEMORY_BYTES = (uint64_t)FRAMES * TABLE;
static const uint64_t FIRMWARE_START = 0xfffc0000;
static const uint64_t HUGE = 0x200000;

static const uint64_t LARGE = 1 << 7, GLOBAL = 1 << 8;
static const uint64_t NO_RUN = 1ull << 63;
static const uint64_t ABOVE_WIDTH = 1ull << 45; /* reserved, as the machine has 40 bits */

static const uint64_t MASK_USER = 1ull << 61; /* of CR3 */

static uint64_t random_frame(void)
{
    return random_number() % FRAMES * TABLE;
}

/* Maps pages of 4 KBytes to frames anywhere. Of each `one_in` pages, one is left out: its entry isn't present. */
static void map_pages(uint64_t root, uint64_t linear, uint64_t count, uint64_t bits, uint64_t one_in)
{
    for (uint64_t page = 0; page < count; page++) {
        uint64_t *entry = entry_for(root, linear + page * TABLE, 1);
        *entry = random_frame() | PRESENT | USED | bits;
        if (one_in != 0 && random_number() % one_in == 0)
            *entry &= ~PRESENT;
    }
}

/* Maps a range of linear addresses to a range of physical ones, by pages of 2 MBytes. */
static void map_huge_pages(uint64_t root, uint64_t linear, uint64_t physical, uint64_t count, uint64_t bits)
{
    for (uint64_t page = 0; page < count; page++)
        *entry_for(root, linear + page * HUGE, 2) = (physical + page * HUGE) | PRESENT | USED | LARGE | bits;
}

/* All of memory, one after the other: every fourth 2 MBytes by pages of 4 KBytes. */
static void map_directly(uint64_t root, uint64_t linear)
{
    for (uint64_t start = 0; start < MEMORY_BYTES; start += HUGE) {
        if (start / HUGE % 4 != 0) {
            map_huge_pages(root, linear + start, start, 1, WRITABLE | GLOBAL | NO_RUN);
            continue;
        }
        for (uint64_t page = start; page < start + HUGE; page += TABLE)
            *entry_for(root, linear + page, 1) = page | PRESENT | WRITABLE | USED | GLOBAL | NO_RUN;
    }
}

static void map_kernel(uint64_t root)
{
    const uint64_t image = 0xffffffff81000000, loaded = 0x1000000, modules = 0xffffffffc0000000;
    map_directly(root, 0xffff888000000000);
    for (uint64_t stack = 0; stack < 4096; stack++) /* four pages each, and one between that isn't there */
        map_pages(root, 0xffffc90000000000 + stack * 5 * TABLE, 4, WRITABLE | GLOBAL | NO_RUN, 0);
    map_huge_pages(root, 0xffffea0000000000, 0x8000000, 4, WRITABLE | GLOBAL | NO_RUN);
    map_pages(root, 0xfffffe0000000000, 64, GLOBAL | NO_RUN, 0);
    map_huge_pages(root, image, loaded, 8, GLOBAL);
    map_huge_pages(root, image + 8 * HUGE, loaded + 8 * HUGE, 4, GLOBAL | NO_RUN);
    map_huge_pages(root, image + 12 * HUGE, loaded + 12 * HUGE, 4, WRITABLE | GLOBAL | NO_RUN);
    for (uint64_t module = 0; module < 64; module++) {
        uint64_t start = modules + module * 32 * TABLE;
        map_pages(root, start, 16, GLOBAL, 0);
        map_pages(root, start + 16 * TABLE, 4, GLOBAL | NO_RUN, 0);
        map_pages(root, start + 20 * TABLE, 8, WRITABLE | GLOBAL | NO_RUN, 0);
    }
}

/* Mappings of 64 pages each, under the protection keys 0 to 5 in turn. Every fifth is to be read alone. */
static void map_keyed(uint64_t root, uint64_t linear, uint64_t count)
{
    for (uint64_t mapping = 0; mapping < count; mapping++) {
        uint64_t writable = mapping % 5 == 0 ? 0 : WRITABLE;
        map_pages(root, linear + mapping * 64 * TABLE, 64, USER | NO_RUN | writable | mapping % 6 << 59, 32);
    }
}

/* `share` is how much it has mapped, of 8. */
static void map_process(uint64_t root, uint64_t share)
{
    const uint64_t program = 0x400000, heap = 0x1a3c000, mappings = 0x7f3a40000000, libraries = 0x7f3ac0000000;
    map_pages(root, program, 512, USER, 0);
    map_pages(root, program + 512 * TABLE, 256, USER | NO_RUN, 0);
    map_pages(root, program + 768 * TABLE, 256, USER | WRITABLE | NO_RUN, 0);
    map_pages(root, heap, 1024 * share, USER | WRITABLE | NO_RUN, 16);
    map_keyed(root, mappings, 64 * share);
    map_huge_pages(root, mappings - 64 * HUGE, MEMORY_BYTES / 2, 4 * share, USER | WRITABLE | NO_RUN);
    for (uint64_t library = 0; library < 5 * share; library++) {
        uint64_t start = libraries + library * 128 * TABLE;
        map_pages(root, start, 80, USER, 0);
        map_pages(root, start + 80 * TABLE, 24, USER | NO_RUN, 0);
        map_pages(root, start + 104 * TABLE, 16, USER | WRITABLE | NO_RUN, 0);
    }
    map_pages(root, 0x7ffd12345000, 64, USER | WRITABLE | NO_RUN, 0);

    /* What no kernel means to do: a directory entry that names a table where no memory is, and reserved bits. */
    *entry_for(root, mappings - 80 * HUGE, 2) = 0x4000000000 | PRESENT | WRITABLE | USER | USED;
    for (uint64_t page = 0; page < 64 * share; page += 16)
        *entry_for(root, mappings + page * 64 * TABLE, 1) |= ABOVE_WIDTH;
}

/* The top tables of the two processes. */
static void map_all(uint64_t roots[2])
{
    for (int process = 0; process < 2; process++)
        roots[process] = new_table();
    map_kernel(roots[0]);
    memcpy(entry_at(roots[1] + TABLE / 2), entry_at(roots[0] + TABLE / 2), TABLE / 2);
    map_process(roots[0], 8);
    map_process(roots[1], 3);
}

/* ---- Files ---- */

/* The file header, the program headers, and the notes: of each processor one, as QEMU writes them, with zeros. */
static bool write_headers(FILE *file)
{
    static unsigned char bytes[FILE_HEADER + PROGRAM_HEADER * HEADERS + NOTE_BYTES * NOTES];
    const uint64_t notes = FILE_HEADER + PROGRAM_HEADER * HEADERS;
    put_file_header(bytes, HEADERS);
    put_header(bytes + 64, 4, notes, 0, NOTE_BYTES * NOTES);
    put_header(bytes + 120, 1, sizeof bytes, 0, MEMORY_BYTES);
    put_header(bytes + 176, 1, sizeof bytes + MEMORY_BYTES, FIRMWARE_START, FIRMWARE_BYTES);
    for (unsigned char *note = bytes + notes; note < bytes + sizeof bytes; note += NOTE_BYTES) {
        put(note, 4, 5);
        put(note + 4, 4, NOTE_BYTES - 20);
        put(note + 8, 4, 1);
        memcpy(note + 12, "CORE", 5);
    }
    return fwrite(bytes, sizeof bytes, 1, file) == 1;
}

static bool write_core(const char *path)
{
    static const unsigned char firmware[FIRMWARE_BYTES];
    FILE *file = fopen(path, "wb");
    return file != NULL && write_headers(file) && fwrite(memory, MEMORY_BYTES, 1, file) == 1 &&
           fwrite(firmware, sizeof firmware, 1, file) == 1 && fclose(file) == 0;
}

/* Both have WP, SMEP, SMAP and protection keys. Processor 1 masks user pointers besides. */
static bool write_head(const char *path, const uint64_t roots[2])
{
    FILE *file = fopen(path, "w");
    if (file == NULL)
        return false;
    fprintf(file, "machine 40 1\n");
    fprintf(file, "cpu 0 0x80050033 0x%lx 0x750eb0 0xd01 0x206 0x55555418 0x0\n", roots[0]);
    fprintf(file, "cpu 1 0x80050033 0x%lx 0x750eb0 0xd01 0x206 0x55555418 0x0\n", roots[1] | MASK_USER);
    return fclose(file) == 0;
}

int main(int argc, char **argv)
{
    if (argc != 3) {
        fprintf(stderr, "usage: make_core CORE HEAD\n");
        return 2;
    }
    if (!take_memory(FRAMES)) {
        perror("make_core");
        return 1;
    }
    uint64_t roots[2];
    map_all(roots);
    if (!write_core(argv[1]) || !write_head(argv[2], roots)) {
        perror("make_core");
        return 1;
    }
    return 0;
}
