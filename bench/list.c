/* Lists the areas of a core, for the `list` lines of a log: list CORE LOG

   Knows `machine`, `cpu` and `list` lines and comments, and stops at every other line. */
#include "answers.h"

enum { ENTRIES = 512, TABLE_SIZE = 4096, USE_LIMIT = 262144, LEAF_LIMIT = 2097152 };

/* Memory as the core has it. */
struct view {
    struct memory memory;
};

static inline bool seen_entry(const struct view *view, uint64_t address, uint64_t *entry)
{
    return known_entry(&view->memory, address, entry);
}

/* The bytes of a table, where one segment has them all. */
static const unsigned char *whole_table(const struct memory *memory, uint64_t table)
{
    for (const struct segment *segment = memory->segments; segment < memory->segments + memory->count; segment++) {
        uint64_t offset = table - segment->start;
        if (offset < segment->size && segment->size - offset >= TABLE_SIZE)
            return segment->bytes + offset;
        if (offset < segment->size || -offset < TABLE_SIZE)
            return NULL;
    }
    return NULL;
}

/* ---- Rights ---- */

/* In the order of their letters. */
static const unsigned ACCESSES[] = {USER, USER | WRITE, USER | FETCH, 0, WRITE, FETCH, IMPLICIT, IMPLICIT | WRITE};
static const char LETTERS[] = "rwxrwxrw";

enum { ALL_ACCESSES = sizeof ACCESSES / sizeof *ACCESSES, PROTECTIONS = 128 };

/* Parts of the canonical addresses throughout which LASS and masking are the same. */
enum { LOW, MIDDLE, HIGH, ZONES };

static const uint64_t ZONE_STARTS[] = {[LOW] = 0, [MIDDLE] = 1ull << 47, [HIGH] = 0xffff800000000000};

static inline int zone_of(uint64_t address)
{
    return bit(address, 63) ? HIGH : address >= ZONE_STARTS[MIDDLE] ? MIDDLE : LOW;
}

/* The bits that joined entries have in common and those that one of them has, and the key of the last. */
static inline unsigned protection_of(uint64_t all, uint64_t some, uint64_t leaf)
{
    return (unsigned)(all >> 1 & 3) | (unsigned)(some >> 63) << 2 | (unsigned)(leaf >> 59 & 15) << 3;
}

/* One bit for each access that is granted on the pages of a protection. */
static unsigned char rights_of(const struct processor *processor, uint64_t address, unsigned protection)
{
    struct page page = {protection & 1, protection & 2, protection & 4, protection >> 3};
    unsigned rights = 0;
    for (int index = 0; index < ALL_ACCESSES; index++) {
        uint64_t reached;
        if (pointed(processor, ACCESSES[index], address, &reached) == GRANTED && reached == address &&
            refusal(processor, ACCESSES[index], page) == GRANTED)
            rights |= 1u << index;
    }
    return (unsigned char)rights;
}

/* ---- The walk ---- */

struct area {
    uint64_t first, last, frame;
    unsigned char rights;
};

struct listing {
    const struct memory *memory;
    const struct processor *processor;
    unsigned char rights[ZONES][PROTECTIONS];
    struct area *areas;
    size_t count, room;
    uint64_t uses, leaves;
};

static void add_area(struct listing *listing, struct area area)
{
    if (listing->count == listing->room) {
        listing->room = 2 * listing->room + 64;
        listing->areas = realloc(listing->areas, listing->room * sizeof area);
        if (listing->areas == NULL)
            stop(NO_ROOM, "list: no room for areas");
    }
    listing->areas[listing->count++] = area;
}

/* A page goes into the last area where it goes on from it, with the same rights. */
static inline void add_page(struct listing *listing, struct area page)
{
    if (listing->count > 0) {
        struct area *last = &listing->areas[listing->count - 1];
        if (page.first == last->last + 1 && page.frame == last->frame + (page.first - last->first) &&
            page.rights == last->rights) {
            last->last = page.last;
            return;
        }
    }
    add_area(listing, page);
}

/* Lists what entries of a table map, whose entry 0 serves the addresses from `start` on. False where it is too much. */
static bool walk(struct listing *listing, uint64_t table, int level, uint64_t start, unsigned from, unsigned end,
                 uint64_t all, uint64_t some)
{
    const unsigned char *bytes = whole_table(listing->memory, table);
    for (unsigned index = from; index < end; index++) {
        uint64_t entry;
        if (bytes != NULL)
            entry = number_at(bytes + 8 * index, 8);
        else if (!known_entry(listing->memory, table + 8 * index, &entry))
            continue;
        if (!bit(entry, 0) || has_reserved_bit(listing->processor, entry, level))
            continue;
        uint64_t first = start + ((uint64_t)index << low_bits(level));
        if (maps_page(entry, level)) {
            if (listing->leaves++ == LEAF_LIMIT)
                return false;
            uint64_t low = bits(0, low_bits(level));
            unsigned protection = protection_of(all & entry, some | entry, entry);
            unsigned char rights = listing->rights[zone_of(first)][protection];
            add_page(listing, (struct area){first, first | low, entry & bits(0, 52) & ~low, rights});
        } else {
            if (listing->uses++ == USE_LIMIT)
                return false;
            if (!walk(listing, entry & bits(12, 52), level - 1, first, 0, ENTRIES, all & entry, some | entry))
                return false;
        }
    }
    return true;
}

/* Both halves of the canonical addresses. */
static bool walk_all(struct listing *listing)
{
    const struct processor *processor = listing->processor;
    for (int zone = 0; zone < ZONES; zone++)
        for (unsigned protection = 0; protection < PROTECTIONS; protection++)
            listing->rights[zone][protection] = rights_of(processor, ZONE_STARTS[zone], protection);
    listing->uses = 1;
    uint64_t upper = -(1ull << processor->canonical_width);
    return walk(listing, processor->root, processor->levels, 0, 0, ENTRIES / 2, ~0ull, 0) &&
           walk(listing, processor->root, processor->levels, upper, ENTRIES / 2, ENTRIES, ~0ull, 0);
}

/* ---- Lines ---- */

static inline char *put_text(char *at, const char *text)
{
    size_t size = strlen(text);
    memcpy(at, text, size);
    return at + size;
}

/* Behind the last byte that was put at the end of the output. */
static inline void put_end(struct output *output, char *end)
{
    *end++ = '\n';
    output->size = (size_t)(end - output->bytes);
    if (output->size >= ENOUGH)
        write_out(output);
}

static inline void put_area(struct output *output, const struct area *area)
{
    char *at = put_text(output->bytes + output->size, "0x");
    at = put_text(put_hexadecimal(at, area->first), " 0x");
    at = put_text(put_hexadecimal(at, area->last), " 0x");
    at = put_text(put_hexadecimal(at, area->frame), " ");
    for (int index = 0; index < ALL_ACCESSES; index++)
        *at++ = area->rights >> index & 1 ? LETTERS[index] : '-';
    put_end(output, at);
}

static void list(struct output *output, const struct memory *memory, const struct processor *processor)
{
    struct listing listing = {.memory = memory, .processor = processor};
    if (walk_all(&listing)) {
        char *at = output->bytes + output->size;
        put_end(output, at + sprintf(at, "areas %zu", listing.count));
        for (const struct area *area = listing.areas; area < listing.areas + listing.count; area++)
            put_area(output, area);
    } else
        put_end(output, put_text(output->bytes + output->size, "areas too large"));
    free(listing.areas);
}

int main(int argc, char **argv)
{
    if (argc != 3)
        stop(BAD_USE, "usage: list CORE LOG");
    struct file core = read_file(argv[1]), log = read_file(argv[2]);
    struct view view = {memory_of(core)};
    struct machine machine = UNSTATED;
    static struct output output;
    bool listed = false;
    const unsigned char *at = log.bytes, *end = at + log.size;
    while (at < end) {
        uint64_t number;
        const struct processor *processor;
        if (take_word(&at, "list ")) {
            if (!take_number(&at, &number) || !take_byte(&at, '\n') || !(processor = processor_of(&machine, number)))
                stop(BAD_LOG, "list: a bad list line");
            list(&output, &view.memory, processor);
            listed = true;
        } else if (!take_passed_over(&at, end) && (listed || !take_state_line(&at, &machine)))
            stop(BAD_LOG, "list: a bad line");
    }
    write_out(&output);
    return 0;
}
