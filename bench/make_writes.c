/* Writes a log of `write` and `ask` lines about a core:

   make_writes CORE HEAD same PAGES ASKS
   make_writes CORE HEAD new PAGES WRITES ASKS

   HEAD is a log of state lines alone, and begins this one. Each `write` line has the eight bytes of an entry.

   same    Writes to PAGES tables of all levels, to each once, the bytes that it has. Then asks for random addresses in
           pages of 4 KBytes that are mapped. These lines are the same however many pages are written.
   new     Writes to random entries of PAGES tables of level 1. An entry gets a random page with random rights, or none.
           Then asks for random addresses that are translated by the entries that were written.

   All is by the tables of the first processor, and random, always the same. */
#include "core_and_log.h"
#include "random_numbers.h"

/* The longest log that the program takes. */
static const size_t LOG_LIMIT = 268435456;

/* Present, writes allowed, user accesses allowed, accessed, dirty, an address below 2 to the 40, execute-disable. */
static const uint64_t RANDOM_BITS = 0x800000fffffff067;

static const char *const KINDS[] = {"ur", "uw", "ux"};

/* Where a table lies, and the first linear address that is translated by it. */
struct table {
    uint64_t place, address;
};

struct tables {
    struct table *tables;
    size_t count, room;
};

static void add_table(struct tables *tables, struct table table)
{
    if (tables->count == tables->room) {
        tables->room = 2 * tables->room + 1024;
        tables->tables = realloc(tables->tables, tables->room * sizeof table);
        if (tables->tables == NULL)
            stop(NO_ROOM, "make_writes: no room for tables");
    }
    tables->tables[tables->count++] = table;
}

/* Adds a table and those below it: all to `all`, and those of level 1 to `lowest` too. */
static void gather(struct tables *all, struct tables *lowest, const struct memory *memory,
                   const struct processor *processor, struct table table, int level)
{
    uint64_t entry;
    if (!known_entry(memory, table.place, &entry))
        return;
    add_table(all, table);
    if (level == 1) {
        add_table(lowest, table);
        return;
    }
    for (uint64_t index = 0; index < 512; index++) {
        if (!known_entry(memory, table.place + 8 * index, &entry) || !bit(entry, 0) || maps_page(entry, level) ||
            has_reserved_bit(processor, entry, level))
            continue;
        uint64_t address = sign_extended(table.address + (index << low_bits(level)), processor->canonical_width);
        gather(all, lowest, memory, processor, (struct table){entry & bits(12, 52), address}, level - 1);
    }
}

/* One of so many tables, which stand evenly among all. */
static struct table chosen(const struct tables *tables, size_t index, size_t count)
{
    return tables->tables[index * tables->count / count];
}

static size_t put_write(uint64_t place, uint64_t entry)
{
    return (size_t)printf("write 0x%lx %016lx\n", place, __builtin_bswap64(entry));
}

static size_t put_ask(const struct processor *processor, struct table table, uint64_t index)
{
    uint64_t address = table.address + index * 4096 + random_number() % 4096;
    return (size_t)printf("ask %lu %s 0x%lx\n", processor->number, KINDS[random_number() % 3], address);
}

static size_t put_same(const struct memory *memory, const struct tables *tables, size_t pages)
{
    size_t size = 0;
    for (size_t index = 0; index < pages; index++) {
        uint64_t place = chosen(tables, index, pages).place + 8 * (index % 512), entry;
        if (!known_entry(memory, place, &entry))
            stop(BAD_CORE, "make_writes: half a table");
        size += put_write(place, entry);
    }
    return size;
}

static size_t put_mapped_asks(const struct memory *memory, const struct processor *processor,
                              const struct tables *lowest, long asks)
{
    size_t size = 0;
    while (asks > 0) {
        struct table table = lowest->tables[random_number() % lowest->count];
        uint64_t index = random_number() % 512, entry;
        if (!known_entry(memory, table.place + 8 * index, &entry) || !bit(entry, 0) ||
            has_reserved_bit(processor, entry, 1))
            continue;
        size += put_ask(processor, table, index);
        asks--;
    }
    return size;
}

/* Writes of random entries, and asks that go by the entries that were written. */
static size_t put_new(const struct processor *processor, const struct tables *lowest, size_t pages, size_t writes,
                      long asks)
{
    struct written {
        struct table table;
        uint64_t index;
    } *written = calloc(writes, sizeof *written);
    if (written == NULL)
        stop(NO_ROOM, "make_writes: no room for entries");
    size_t size = 0;
    for (size_t line = 0; line < writes; line++) {
        written[line] = (struct written){chosen(lowest, random_number() % pages, pages), random_number() % 512};
        size += put_write(written[line].table.place + 8 * written[line].index, random_number() & RANDOM_BITS);
    }
    for (; asks > 0; asks--) {
        struct written one = written[random_number() % writes];
        size += put_ask(processor, one.table, one.index);
    }
    return size;
}

static struct machine read_head(struct file head)
{
    struct machine machine = UNSTATED;
    const unsigned char *at = head.bytes, *end = at + head.size;
    while (at < end)
        if (!take_passed_over(&at, end) && !take_state_line(&at, &machine))
            stop(BAD_LOG, "make_writes: a bad state line");
    if (machine.count == 0)
        stop(BAD_LOG, "make_writes: no processor");
    return machine;
}

int main(int argc, char **argv)
{
    bool same = argc == 6 && strcmp(argv[3], "same") == 0, new = argc == 7 && strcmp(argv[3], "new") == 0;
    if (!same && !new)
        stop(BAD_USE, "usage: make_writes CORE HEAD same PAGES ASKS | new PAGES WRITES ASKS");
    struct memory memory = memory_of(read_file(argv[1]));
    struct file head = read_file(argv[2]);
    struct machine machine = read_head(head);
    const struct processor *processor = machine.processors;
    struct tables all = {0}, lowest = {0};
    gather(&all, &lowest, &memory, processor, (struct table){processor->root, 0}, processor->levels);
    size_t pages = strtoull(argv[4], NULL, 10);
    if (lowest.count == 0 || pages > (same ? all.count : lowest.count) || (new && pages == 0))
        stop(BAD_LOG, "make_writes: not as many tables");
    size_t size = fwrite(head.bytes, 1, head.size, stdout);
    if (same) {
        size += put_same(&memory, &all, pages);
        size += put_mapped_asks(&memory, processor, &lowest, atol(argv[5]));
    } else
        size += put_new(processor, &lowest, pages, strtoull(argv[5], NULL, 10), atol(argv[6]));
    if (size > LOG_LIMIT)
        stop(BAD_LOG, "make_writes: too long a log: ask for fewer lines");
    return fflush(stdout) == 0 ? 0 : NOT_WRITTEN;
}
