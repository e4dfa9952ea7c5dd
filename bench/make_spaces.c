/* Writes a core of 64 MBytes, and the state lines of its processor: make_spaces CORE HEAD SPACE

   SPACE says what the processor's tables map, of which a listing takes 2,097,152 pages and 262,144 uses of tables:

   one          2,097,152 pages of 4 KBytes, all one area
   apart        as many pages, each an area by itself
   shared       as many pages by 19 tables: 256 entries of the table of level 3 name the same one of level 2
   pages-over   one, and a page more
   uses         262,144 uses of tables without a page, by six tables
   uses-over    uses, and a use more

   Tables lie scattered. What is in the other frames is random, always the same. */
#include "core_file.h"

enum { FRAMES = 16384, ENTRIES = 512, PAGES = 2097152 };

static const uint64_t GIANT = 0x40000000; /* what an entry of level 3 serves */

/* ---- Spaces ---- */

static void map_page(uint64_t root, uint64_t linear, uint64_t frame)
{
    *entry_for(root, linear, 1) = frame | PRESENT | WRITABLE | USER | USED;
}

static void map_in_order(uint64_t root, uint64_t count)
{
    for (uint64_t page = 0; page < count; page++)
        map_page(root, page * TABLE, page * TABLE);
}

/* No frame is the next one of that before: the factor is odd, and not 1. */
static void map_apart(uint64_t root)
{
    for (uint64_t page = 0; page < PAGES; page++)
        map_page(root, page * TABLE, page * 40503 % (1 << 28) * TABLE);
}

static void map_shared(uint64_t root)
{
    map_in_order(root, 16 * ENTRIES);
    for (uint64_t giant = 1; giant < 256; giant++)
        *entry_for(root, giant * GIANT, 3) = *entry_for(root, 0, 3);
}

/* Names a table of a level by entries from a linear address on. */
static void name(uint64_t root, uint64_t linear, int level, uint64_t count, uint64_t table)
{
    for (uint64_t index = 0; index < count; index++)
        *entry_for(root, linear + index * (TABLE << 9 * level), level + 1) = table | PRESENT | WRITABLE | USER | USED;
}

/* A root, a table of level 3, and under it 511 uses of level 2: one table 510 times, with as many uses below as it has
   entries, and one with a use less or as many. */
static void map_uses(uint64_t root, uint64_t last)
{
    uint64_t empty = new_table(), full = new_table();
    name(root, 511 * GIANT, 1, last, empty);
    name(root, 0, 2, 1, full);
    name(root, 0, 1, ENTRIES, empty);
    name(root, 0, 2, 510, full);
}

static bool map_space(uint64_t root, const char *space)
{
    if (strcmp(space, "one") == 0)
        map_in_order(root, PAGES);
    else if (strcmp(space, "apart") == 0)
        map_apart(root);
    else if (strcmp(space, "shared") == 0)
        map_shared(root);
    else if (strcmp(space, "pages-over") == 0)
        map_in_order(root, PAGES + 1);
    else if (strcmp(space, "uses") == 0)
        map_uses(root, ENTRIES - 1);
    else if (strcmp(space, "uses-over") == 0)
        map_uses(root, ENTRIES);
    else
        return false;
    return true;
}

/* ---- Files ---- */

static bool write_core(const char *path)
{
    static unsigned char bytes[FILE_HEADER + PROGRAM_HEADER];
    put_file_header(bytes, 1);
    put_header(bytes + FILE_HEADER, 1, sizeof bytes, 0, FRAMES * TABLE);
    FILE *file = fopen(path, "wb");
    return file != NULL && fwrite(bytes, sizeof bytes, 1, file) == 1 && fwrite(memory, FRAMES * TABLE, 1, file) == 1 &&
           fclose(file) == 0;
}

/* The registers of make_core.c, without masking. */
static bool write_head(const char *path, uint64_t root)
{
    FILE *file = fopen(path, "w");
    if (file == NULL)
        return false;
    fprintf(file, "machine 40 1\n");
    fprintf(file, "cpu 0 0x80050033 0x%lx 0x750eb0 0xd01 0x206 0x55555418 0x0\n", root);
    return fclose(file) == 0;
}

int main(int argc, char **argv)
{
    if (argc == 4 && !take_memory(FRAMES)) {
        perror("make_spaces");
        return 1;
    }
    uint64_t root = argc == 4 ? new_table() : 0;
    if (argc != 4 || !map_space(root, argv[3])) {
        fprintf(stderr, "usage: make_spaces CORE HEAD one|apart|shared|pages-over|uses|uses-over\n");
        return 2;
    }
    if (!write_core(argv[1]) || !write_head(argv[2], root)) {
        perror("make_spaces");
        return 1;
    }
    return 0;
}
