/* Writes a core that is nearly all page tables, and the state lines of its processor:
   make_tables CORE HEAD FRAMES SEGMENTS ORDER

   Of eight of its frames, whose number is a power of 2, seven are tables of level 1. They lie scattered, so that each
   part of memory has as many. Each of their entries maps a user's page, to read and to write, anywhere below 2 to the
   40; few of these are in the core. What is in the other frames is random. All is the same each time.

   The memory is cut at frames into segments, as alike as can be. ORDER says how they follow one another:

   ascending    by their addresses
   descending   from the last one to the first
   twice        ascending, after a segment of an eighth of memory, whose bytes stand twice in the file: a kdump has the
                kernel's text so */
#include "core_file.h"

/* How many entries of the root are in use. Tables of level 1 that follow one another are under different ones. */
enum { TOPS = 128 };

static void map_all(uint64_t root)
{
    const uint64_t tables = frames / 8 * 7;
    for (uint64_t table = 0; table < tables; table++) {
        uint64_t *entries = entry_for(root, table % TOPS << 39 | table / TOPS << 21, 1);
        for (uint64_t index = 0; index < 512; index++)
            entries[index] = (random_number() & 0xfffffff000) | PRESENT | WRITABLE | USER | USED;
    }
}

/* Where the segment of an index begins, of so many. */
static uint64_t start_of(uint64_t index, uint64_t segments)
{
    return index * frames / segments * TABLE;
}

static bool write_core(const char *path, uint64_t segments, bool descending, bool twice)
{
    const uint64_t size = frames * TABLE, again = size / 8, again_start = size / 4;
    const uint64_t headers = segments + twice, headers_size = FILE_HEADER + PROGRAM_HEADER * headers;
    unsigned char *bytes = calloc(headers_size, 1), *header = bytes + FILE_HEADER;
    FILE *file = fopen(path, "wb");
    if (bytes == NULL || file == NULL)
        return false;
    put_file_header(bytes, headers);
    if (twice) {
        put_header(header, 1, headers_size + size, again_start, again);
        header += PROGRAM_HEADER;
    }
    for (uint64_t count = 0; count < segments; count++, header += PROGRAM_HEADER) {
        uint64_t index = descending ? segments - 1 - count : count;
        uint64_t start = start_of(index, segments), end = start_of(index + 1, segments);
        put_header(header, 1, headers_size + start, start, end - start);
    }
    return fwrite(bytes, headers_size, 1, file) == 1 && fwrite(memory, size, 1, file) == 1 &&
           (!twice || fwrite(memory + again_start, again, 1, file) == 1) && fclose(file) == 0;
}

/* The registers of make_core.c, without masking. */
static bool write_head(const char *path, uint64_t root)
{
    FILE *file = fopen(path, "w");
    if (file == NULL)
        return false;
    fprintf(file, "machine 40 1\n");
    fprintf(file, "cpu 0 0x80050033 0x%lx 0x750eb0 0xd01 0x206 0x55555418 0x0\n", root);
    return fclose(file) == 0;
}

int main(int argc, char **argv)
{
    uint64_t count = argc == 6 ? strtoull(argv[3], NULL, 10) : 0;
    uint64_t segments = argc == 6 ? strtoull(argv[4], NULL, 10) : 0;
    bool descending = argc == 6 && strcmp(argv[5], "descending") == 0;
    bool twice = argc == 6 && strcmp(argv[5], "twice") == 0;
    bool known = descending || twice || (argc == 6 && strcmp(argv[5], "ascending") == 0);
    bool right = known && count >= 8192 && (count & (count - 1)) == 0 && segments > 0 && segments <= count;
    if (!right || segments + twice >= 0xffff) {
        fprintf(stderr, "usage: make_tables CORE HEAD FRAMES SEGMENTS ascending|descending|twice\n");
        return 2;
    }
    if (!take_memory(count)) {
        perror("make_tables");
        return 1;
    }
    uint64_t root = new_table();
    map_all(root);
    if (!write_core(argv[1], segments, descending, twice) || !write_head(argv[2], root)) {
        perror("make_tables");
        return 1;
    }
    return 0;
}
