/* Writes a log of `ask` lines about a core: make_asks CORE HEAD COUNT

   HEAD is a log of state lines alone, and begins this one. The lines ask for every kind of access, by each processor in
   turn, to addresses in pages that the processor's tables have: lower and upper addresses alike often. One line in eight
   asks for such an address with one bit changed, which may be mapped or not. All is random, and always the same. */
#include "core_and_log.h"
#include "random_numbers.h"

/* The longest log that the program takes. */
static const size_t LOG_LIMIT = 268435456;

static const char *const KINDS[] = {"ur", "uw", "ux", "sr", "sw", "sx", "ir", "iw"};

struct page {
    uint64_t address, size;
};

struct pages {
    struct page *pages;
    size_t count, room;
};

static void add_page(struct pages *pages, struct page page)
{
    if (pages->count == pages->room) {
        pages->room = 2 * pages->room + 1024;
        pages->pages = realloc(pages->pages, pages->room * sizeof page);
        if (pages->pages == NULL)
            stop(NO_ROOM, "make_asks: no room for pages");
    }
    pages->pages[pages->count++] = page;
}

/* Adds what a table of a level has present from an address on: to `halves[1]` where bit 63 is 1, else to the other. An
   entry that isn't known, or has reserved bits, counts as a page. */
static void gather(struct pages halves[2], const struct memory *memory, const struct processor *processor,
                   uint64_t table, int level, uint64_t start)
{
    for (uint64_t index = 0; index < 512; index++) {
        uint64_t entry, size = 1ull << low_bits(level);
        uint64_t address = sign_extended(start + index * size, processor->canonical_width);
        bool known = known_entry(memory, table + 8 * index, &entry);
        if (known && !bit(entry, 0))
            continue;
        if (!known || has_reserved_bit(processor, entry, level) || maps_page(entry, level))
            add_page(&halves[address >> 63], (struct page){address, size});
        else
            gather(halves, memory, processor, entry & bits(12, 52), level - 1, address);
    }
}

static uint64_t random_address(const struct pages halves[2])
{
    const struct pages *pages = &halves[random_number() & 1];
    if (pages->count == 0)
        pages = pages == halves ? halves + 1 : halves;
    struct page page = pages->pages[random_number() % pages->count];
    uint64_t address = page.address + random_number() % page.size;
    return random_number() % 8 == 0 ? address ^ 1ull << (12 + random_number() % 52) : address;
}

static struct machine read_head(struct file head)
{
    struct machine machine = UNSTATED;
    const unsigned char *at = head.bytes, *end = at + head.size;
    while (at < end)
        if (!take_passed_over(&at, end) && !take_state_line(&at, &machine))
            stop(BAD_LOG, "make_asks: a bad state line");
    if (machine.count == 0)
        stop(BAD_LOG, "make_asks: no processor");
    return machine;
}

int main(int argc, char **argv)
{
    if (argc != 4)
        stop(BAD_USE, "usage: make_asks CORE HEAD COUNT");
    struct memory memory = memory_of(read_file(argv[1]));
    struct file head = read_file(argv[2]);
    struct machine machine = read_head(head);
    static struct pages halves[ALL_PROCESSORS][2];
    for (size_t index = 0; index < machine.count; index++) {
        const struct processor *processor = &machine.processors[index];
        gather(halves[index], &memory, processor, processor->root, processor->levels, 0);
        if (halves[index][0].count + halves[index][1].count == 0)
            stop(BAD_LOG, "make_asks: a processor without pages");
    }
    size_t size = fwrite(head.bytes, 1, head.size, stdout);
    for (long line = 0; line < atol(argv[3]); line++) {
        size_t index = (size_t)line % machine.count;
        const char *kind = KINDS[random_number() % 8];
        uint64_t address = random_address(halves[index]);
        size += (size_t)printf("ask %lu %s 0x%lx\n", machine.processors[index].number, kind, address);
    }
    if (size > LOG_LIMIT)
        stop(BAD_LOG, "make_asks: too long a log: ask for fewer lines");
    return fflush(stdout) == 0 ? 0 : NOT_WRITTEN;
}
