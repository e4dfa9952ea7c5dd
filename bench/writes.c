/* Answers the `ask` lines of a log that writes to memory too: writes CORE LOG [keep]

   Knows `write` lines beside those that asks.c knows, and stops at every other line, and at a write that is refused. A
   page gets a copy at the first write to it. With `keep` it also keeps what each slot held before each write. */
#include "answers.h"

enum { PAGE = 4096, PAGE_LIMIT = 262144, FIRST_ROOM = 1024, SLOT = 8 };

/* What a slot held before a write. */
struct change {
    uint16_t offset;
    uint32_t time;
    uint64_t old;
};

enum { CHANGES = (PAGE - sizeof(void *)) / sizeof(struct change) };

/* The changes of a page, as many as fit into 4,096 bytes, and those before. */
struct changes {
    struct changes *before;
    struct change changes[CHANGES];
};

/* The bytes of a page that was written to. One that the core lacks is 0. */
struct copy {
    bool whole; /* all its bytes are known */
    size_t changed; /* how many changes are kept */
    struct changes *last;
    unsigned char bytes[PAGE];
};

/* A place of the hash table: a page's number and its copy, or none. */
struct place {
    uint64_t page;
    struct copy *copy;
};

/* Memory as the core has it, and the pages that were written to. `room` is a power of 2. */
struct view {
    struct memory memory;
    struct place *places;
    size_t count, room;
};

/* ---- The core's bytes ---- */

static const struct segment *covering(const struct memory *memory, uint64_t address)
{
    for (const struct segment *segment = memory->segments; segment < memory->segments + memory->count; segment++)
        if (address - segment->start < segment->size)
            return segment;
    return NULL;
}

static bool all_known(const struct memory *memory, uint64_t address, uint64_t size)
{
    while (size > 0) {
        const struct segment *segment = covering(memory, address);
        if (segment == NULL)
            return false;
        uint64_t left = segment->size - (address - segment->start);
        if (left >= size)
            return true;
        address += left;
        size -= left;
    }
    return true;
}

/* Copies what is known of a page. The first segment that has a byte counts, so it is copied last. */
static void copy_page(const struct memory *memory, uint64_t address, unsigned char *bytes)
{
    for (size_t index = memory->count; index-- > 0;) {
        const struct segment *segment = &memory->segments[index];
        uint64_t start = segment->start > address ? segment->start : address;
        uint64_t segment_end = segment->start + segment->size, page_end = address + PAGE;
        uint64_t end = segment_end < page_end ? segment_end : page_end;
        if (start < end)
            memcpy(bytes + (start - address), segment->bytes + (start - segment->start), end - start);
    }
}

/* ---- Written pages ---- */

/* Where the copy of a page is, or may be put. */
static inline struct place *place_of(const struct view *view, uint64_t page)
{
    size_t at = page * 0x9e3779b97f4a7c15 >> 32 & (view->room - 1);
    while (view->places[at].copy != NULL && view->places[at].page != page)
        at = (at + 1) & (view->room - 1);
    return &view->places[at];
}

static void take_room(struct view *view, size_t room)
{
    struct view larger = {view->memory, calloc(room, sizeof(struct place)), view->count, room};
    if (larger.places == NULL)
        stop(NO_ROOM, "writes: no room for pages");
    for (struct place *place = view->places; place < view->places + view->room; place++)
        if (place->copy != NULL)
            *place_of(&larger, place->page) = *place;
    free(view->places);
    *view = larger;
}

static struct copy *new_copy(const struct memory *memory, uint64_t address)
{
    struct copy *copy = malloc(sizeof *copy);
    if (copy == NULL)
        stop(NO_ROOM, "writes: no room for a page");
    copy->changed = 0;
    copy->last = NULL;
    copy->whole = all_known(memory, address, PAGE);
    if (!copy->whole)
        memset(copy->bytes, 0, PAGE);
    copy_page(memory, address, copy->bytes);
    return copy;
}

/* The copy of a page, which is made where there is none. */
static struct copy *copy_of(struct view *view, uint64_t page)
{
    struct place *place = place_of(view, page);
    if (place->copy != NULL)
        return place->copy;
    if (view->count == PAGE_LIMIT)
        stop(BAD_LOG, "writes: too many pages");
    struct copy *copy = new_copy(&view->memory, page * PAGE);
    *place = (struct place){page, copy};
    if (++view->count > view->room / 2)
        take_room(view, 2 * view->room);
    return copy;
}

static inline bool seen_entry(const struct view *view, uint64_t address, uint64_t *entry)
{
    const struct copy *copy = place_of(view, address / PAGE)->copy;
    if (copy == NULL)
        return known_entry(&view->memory, address, entry);
    *entry = number_at(copy->bytes + address % PAGE, 8);
    return copy->whole || all_known(&view->memory, address, 8);
}

static void keep_slot(struct copy *copy, uint64_t offset, uint32_t time)
{
    if (copy->changed % CHANGES == 0) {
        struct changes *changes = malloc(sizeof *changes);
        if (changes == NULL)
            stop(NO_ROOM, "writes: no room for changes");
        changes->before = copy->last;
        copy->last = changes;
    }
    struct change change = {(uint16_t)offset, time, number_at(copy->bytes + offset, SLOT)};
    copy->last->changes[copy->changed++ % CHANGES] = change;
}

/* Of slots that are wholly known. */
static void keep_slots(const struct view *view, struct copy *copy, uint64_t address, size_t size, uint32_t time)
{
    for (uint64_t slot = address - address % SLOT; slot < address + size; slot += SLOT)
        if (copy->whole || all_known(&view->memory, slot, SLOT))
            keep_slot(copy, slot % PAGE, time);
}

/* At a time other than 0 it keeps what the slots held. */
static void write_bytes(struct view *view, uint64_t address, const unsigned char *bytes, size_t size, uint32_t time)
{
    uint64_t offset = address % PAGE;
    if (!all_known(&view->memory, address, size))
        stop(BAD_LOG, "writes: an unknown byte");
    if (offset + size > PAGE)
        stop(BAD_LOG, "writes: two pages");
    struct copy *copy = copy_of(view, address / PAGE);
    if (time > 0)
        keep_slots(view, copy, address, size, time);
    memcpy(copy->bytes + offset, bytes, size);
}

/* ---- Lines ---- */

/* What a `write` line writes. */
struct written {
    uint64_t address;
    size_t size;
    unsigned char bytes[PAGE];
};

/* A `write` line behind its first word. */
static bool take_write(const unsigned char **at, struct written *written)
{
    if (!take_number(at, &written->address) || !take_byte(at, ' '))
        return false;
    unsigned high, low;
    for (written->size = 0; (high = DIGIT[**at]) != 0; *at += 2) {
        if ((low = DIGIT[(*at)[1]]) == 0 || written->size == PAGE)
            return false;
        written->bytes[written->size++] = (unsigned char)((high - 1) << 4 | (low - 1));
    }
    return written->size > 0 && take_byte(at, '\n');
}

int main(int argc, char **argv)
{
    if (argc != 3 && !(argc == 4 && strcmp(argv[3], "keep") == 0))
        stop(BAD_USE, "usage: writes CORE LOG [keep]");
    bool keeps = argc == 4;
    uint32_t now = 0;
    struct file core = read_file(argv[1]), log = read_file(argv[2]);
    struct view view = {.memory = memory_of(core)};
    take_room(&view, FIRST_ROOM);
    struct machine machine = UNSTATED;
    static struct output output;
    bool begun = false;
    const unsigned char *at = log.bytes, *end = at + log.size;
    while (at < end) {
        struct question question;
        struct written written;
        if (take_word(&at, "ask ")) {
            if (!take_ask(&at, &machine, &question))
                stop(BAD_LOG, "writes: a bad ask line");
            put_answer(&output, answer(&view, question.processor, question.access, question.pointer));
            begun = true;
        } else if (take_word(&at, "write ")) {
            if (!take_write(&at, &written))
                stop(BAD_LOG, "writes: a bad write line");
            now++;
            write_bytes(&view, written.address, written.bytes, written.size, keeps ? now : 0);
            begun = true;
        } else if (!take_passed_over(&at, end) && (begun || !take_state_line(&at, &machine)))
            stop(BAD_LOG, "writes: a bad line");
    }
    write_out(&output);
    return 0;
}
