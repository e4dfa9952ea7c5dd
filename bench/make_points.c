/* Writes a core, a log with points, and what these are answered: make_points CORE LOG ANSWERS [NAME=NUMBER]..

   Each PCID has a space of its own, whose last level is full tables. Half of them serve user pages, half serve global
   pages of a kernel that all spaces share. First the processors lose all that they held. Then they go through the
   PCIDs, the same ones each; in each, entries are written, and processors invalidate pages that no table maps. At the
   end are the points. A write changes the dirty bit of a page, and may allow writes to the page: so nothing becomes
   stale by it.

   leaves=5120     pages of a space: a multiple of 512, from 1,024 on
   writes=0        writes to entries of the last level, in all PCIDs together
   tables=0        to how many tables of each space; 0 is to all
   events=0        invalidations, in all PCIDs together
   flips=0         writes after these, each of which changes the accessed bit of an entry of a top table
   pcids=1         at most 16; the last one that they go to is PCID 0
   processors=1    at most 64
   points=1        points at the end
   all=0           1 for `point all`, 0 for `point current`
   stale=0         1 to unmap the last page of all spaces before the points, so that each of them finds it
   rounds=0        other than 0: after the state lines are so many rounds of 100 events, and nothing else. In each
                   round the processors lose everything; then come writes, invalidations and questions, and each tenth
                   event is a point. In every tenth round the last page is unmapped halfway, and in the next it is
                   mapped again.

   Tables lie scattered. All is random, and always the same. */
#include <inttypes.h>

#include "core_file.h"

enum { FRAMES = 1024, TABLE_LIMIT = 500, ENTRIES = 512, PCID_LIMIT = 16, PROCESSOR_LIMIT = 64, ROUND = 100 };

static const uint64_t LARGE_PAGE = 0x200000; /* what a table of the last level serves */
static const uint64_t LOW = 0x7f0000000000, HIGH = 0xffff888000000000, UNMAPPED = 0x600000000000;
static const uint64_t ACCESSED = 1 << 5, DIRTY = 1 << 6, GLOBAL = 1 << 8;
static const uint64_t FRAME = 0xffffffffff000;
static const uint64_t KEEP = 1ull << 63; /* of what is written to CR3 */

static struct {
    uint64_t leaves, writes, tables, events, flips, pcids, processors, points, all, stale, rounds;
} wanted = {.leaves = 5120, .pcids = 1, .processors = 1, .points = 1};

static uint64_t roots[PCID_LIMIT];
static FILE *event_log, *answers;

/* The frame of the last page, where that is unmapped. */
static uint64_t stale_frame;

/* ---- Spaces ---- */

static uint64_t tables_of_space(void)
{
    return wanted.leaves / ENTRIES;
}

/* How many of them serve user pages. */
static uint64_t user_tables(void)
{
    return tables_of_space() / 2;
}

static uint64_t linear_of(uint64_t table, uint64_t slot)
{
    bool user = table < user_tables();
    uint64_t start = user ? LOW + table * LARGE_PAGE : HIGH + (table - user_tables()) * LARGE_PAGE;
    return start + slot * TABLE;
}

static uint64_t *entry_of(uint64_t pcid, uint64_t table, uint64_t slot)
{
    return entry_for(roots[pcid], linear_of(table, slot), 1);
}

static uint64_t *last_entry(void)
{
    return entry_of(0, tables_of_space() - 1, ENTRIES - 1);
}

/* Pages to read alone, in 2 MBytes of memory that no other table has. */
static void map_table(uint64_t pcid, uint64_t table)
{
    static uint64_t count;
    uint64_t start = ++count * 40503 % (1 << 18) * LARGE_PAGE; /* odd, so that none comes twice */
    uint64_t kind = table < user_tables() ? USER : GLOBAL;
    for (uint64_t slot = 0; slot < ENTRIES; slot++)
        *entry_of(pcid, table, slot) = (start + slot * TABLE) | PRESENT | USED | kind;
}

static void map_spaces(void)
{
    for (uint64_t pcid = 0; pcid < wanted.pcids; pcid++) {
        roots[pcid] = new_table();
        for (uint64_t table = 0; table < user_tables(); table++)
            map_table(pcid, table);
    }
    for (uint64_t table = user_tables(); table < tables_of_space(); table++)
        map_table(0, table);
    for (uint64_t pcid = 1; pcid < wanted.pcids; pcid++)
        *entry_for(roots[pcid], HIGH, 4) = *entry_for(roots[0], HIGH, 4);
}

/* ---- Events ---- */

/* Of `count` things that are spread over the PCIDs, the number of the first that falls to a PCID. */
static uint64_t share_of(uint64_t pcid, uint64_t count)
{
    return count * pcid / wanted.pcids;
}

static void write_entry(uint64_t *entry, uint64_t value)
{
    *entry = value;
    fprintf(event_log, "write 0x%" PRIx64 " ", (uint64_t)((unsigned char *)entry - memory));
    for (int byte = 0; byte < 8; byte++)
        fprintf(event_log, "%02x", (unsigned)(value >> 8 * byte & 255));
    fputc('\n', event_log);
}

/* Leaves out the last entry of each table, one of which is that of the last page. */
static void write_some_entry(uint64_t pcid, uint64_t number)
{
    uint64_t *entry = entry_of(pcid, number % wanted.tables, random_number() % (ENTRIES - 1));
    write_entry(entry, (*entry ^ DIRTY) | (random_number() & 1 ? WRITABLE : 0));
}

static void invalidate_some_page(uint64_t number)
{
    uint64_t address = UNMAPPED + random_number() % 65536 * TABLE;
    fprintf(event_log, "invlpg %" PRIu64 " 0x%" PRIx64 "\n", number % wanted.processors, address);
}

static void ask_for_some_page(uint64_t number)
{
    uint64_t address = linear_of(random_number() % tables_of_space(), random_number() % ENTRIES);
    fprintf(event_log, "ask %" PRIu64 " sr 0x%" PRIx64 "\n", number % wanted.processors, address);
}

static void lose_everything(void)
{
    for (uint64_t one = 0; one < wanted.processors; one++)
        fprintf(event_log, "invpcid %" PRIu64 " 2 0 0x0\n", one);
}

static void switch_to(uint64_t pcid)
{
    for (uint64_t one = 0; one < wanted.processors; one++)
        fprintf(event_log, "set %" PRIu64 " cr3 0x%" PRIx64 "\n", one, KEEP | roots[pcid] | pcid);
}

static void flip_accessed(void)
{
    uint64_t *entry = entry_for(roots[0], LOW, 4);
    *entry ^= ACCESSED;
    uint64_t place = (uint64_t)((unsigned char *)entry - memory);
    fprintf(event_log, "write 0x%" PRIx64 " %02x\n", place, (unsigned)(*entry & 255));
}

static void unmap_last_page(void)
{
    stale_frame = *last_entry() & FRAME;
    write_entry(last_entry(), 0);
}

/* The processors have to have lost it. */
static void map_last_page(void)
{
    write_entry(last_entry(), stale_frame | PRESENT | USED | GLOBAL);
    stale_frame = 0;
}

/* ---- Points ---- */

/* The kernel's last page is found under each PCID, since it was global. */
static void answer_no(void)
{
    uint64_t pcids = wanted.all ? wanted.pcids : 1, page = linear_of(tables_of_space() - 1, ENTRIES - 1);
    fprintf(answers, "point no %" PRIu64 "\n", wanted.processors * pcids);
    for (uint64_t one = 0; one < wanted.processors; one++)
        for (uint64_t pcid = 0; pcid < pcids; pcid++)
            fprintf(answers, "cpu %" PRIu64 " pcid %" PRIu64 " page 0x%" PRIx64 " frame 0x%" PRIx64 " ---r-xr-\n", one,
                    pcid, page, stale_frame);
}

static void put_point(void)
{
    fputs(wanted.all ? "point all\n" : "point current\n", event_log);
    if (stale_frame == 0)
        fputs("point yes\n", answers);
    else
        answer_no();
}

/* ---- The log ---- */

/* The registers of make_core.c, with PCIDs. */
static void put_state_lines(void)
{
    fputs("machine 40 1\n", event_log);
    for (uint64_t one = 0; one < wanted.processors; one++)
        fprintf(event_log, "cpu %" PRIu64 " 0x80050033 0x%" PRIx64 " 0x770eb0 0xd01 0x206 0x55555418 0x0\n", one,
                roots[0]);
}

static void put_history(void)
{
    lose_everything();
    for (uint64_t pcid = wanted.pcids; pcid-- > 0;) {
        if (wanted.pcids > 1)
            switch_to(pcid);
        for (uint64_t number = share_of(pcid, wanted.writes); number < share_of(pcid + 1, wanted.writes); number++)
            write_some_entry(pcid, number);
        for (uint64_t number = share_of(pcid, wanted.events); number < share_of(pcid + 1, wanted.events); number++)
            invalidate_some_page(number);
    }
    for (uint64_t flip = 0; flip < wanted.flips; flip++)
        flip_accessed();
    if (wanted.stale)
        unmap_last_page();
    for (uint64_t point = 0; point < wanted.points; point++)
        put_point();
}

static void put_event_of_round(uint64_t round, uint64_t event)
{
    if (event % 10 == 9)
        put_point();
    else if (event == 1 && stale_frame != 0)
        map_last_page();
    else if (event == 50 && round % 10 == 5)
        unmap_last_page();
    else if (event % 3 == 0)
        write_some_entry(0, round * ROUND + event);
    else if (event % 3 == 1)
        invalidate_some_page(event);
    else
        ask_for_some_page(event);
}

static void put_round(uint64_t round)
{
    lose_everything();
    for (uint64_t event = 1; event < ROUND; event++)
        put_event_of_round(round, event);
}

static void put_log(void)
{
    put_state_lines();
    if (wanted.rounds == 0)
        put_history();
    for (uint64_t round = 0; round < wanted.rounds; round++)
        put_round(round);
}

/* ---- Files ---- */

static bool write_core(const char *path)
{
    static unsigned char bytes[FILE_HEADER + PROGRAM_HEADER];
    put_file_header(bytes, 1);
    put_header(bytes + FILE_HEADER, 1, sizeof bytes, 0, FRAMES * TABLE);
    FILE *file = fopen(path, "wb");
    return file != NULL && fwrite(bytes, sizeof bytes, 1, file) == 1 && fwrite(memory, FRAMES * TABLE, 1, file) == 1 &&
           fclose(file) == 0;
}

static bool write_log(const char *path, const char *answers_path)
{
    event_log = fopen(path, "w");
    answers = fopen(answers_path, "w");
    if (event_log == NULL || answers == NULL)
        return false;
    put_log();
    bool written = !ferror(event_log) && !ferror(answers);
    return fclose(event_log) == 0 && fclose(answers) == 0 && written;
}

/* ---- What is wanted ---- */

static bool take_parameter(const char *word)
{
    static const struct {
        const char *name;
        uint64_t *value;
    } NAMES[] = {
        {"leaves=", &wanted.leaves}, {"writes=", &wanted.writes}, {"tables=", &wanted.tables},
        {"events=", &wanted.events}, {"flips=", &wanted.flips},   {"pcids=", &wanted.pcids},
        {"points=", &wanted.points}, {"all=", &wanted.all},       {"processors=", &wanted.processors},
        {"stale=", &wanted.stale},   {"rounds=", &wanted.rounds},
    };
    for (size_t index = 0; index < sizeof NAMES / sizeof *NAMES; index++) {
        size_t size = strlen(NAMES[index].name);
        if (strncmp(word, NAMES[index].name, size) != 0)
            continue;
        char *end;
        *NAMES[index].value = strtoull(word + size, &end, 10);
        return end > word + size && *end == '\0';
    }
    return false;
}

/* Whether it can be made: each half has a table, and all tables have frames. */
static bool is_sound(void)
{
    uint64_t user = user_tables(), kernel = tables_of_space() - user;
    return wanted.leaves % ENTRIES == 0 && user > 0 && kernel <= ENTRIES && wanted.pcids > 0 &&
           wanted.pcids <= PCID_LIMIT && wanted.processors > 0 && wanted.processors <= PROCESSOR_LIMIT &&
           wanted.tables > 0 && wanted.tables <= tables_of_space() &&
           wanted.pcids * (user + 3) + kernel + 2 <= TABLE_LIMIT;
}

int main(int argc, char **argv)
{
    bool sound = argc > 3;
    for (int word = 4; word < argc; word++)
        sound = take_parameter(argv[word]) && sound;
    if (wanted.tables == 0)
        wanted.tables = tables_of_space();
    if (!sound || !is_sound()) {
        fprintf(stderr, "usage: make_points CORE LOG ANSWERS [NAME=NUMBER]..\n");
        return 2;
    }
    if (!take_memory(FRAMES)) {
        perror("make_points");
        return 1;
    }
    map_spaces();
    if (!write_core(argv[1]) || !write_log(argv[2], argv[3])) {
        perror("make_points");
        return 1;
    }
    return 0;
}
