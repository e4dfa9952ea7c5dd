/* What the programs read that answer logs or make them: the memory of a core, the numbers and the state lines of a log,
   and page-table entries. docs/FORMATS.md says what these are. */
#include <fcntl.h>
#include <stdbool.h>
#include <stdint.h>
#include <stdio.h>
#include <stdlib.h>
#include <string.h>
#include <sys/stat.h>
#include <unistd.h>

enum { BAD_USE = 2, BAD_CORE = 3, BAD_LOG = 4, NOT_READ = 5, NOT_WRITTEN = 6, NO_ROOM = 7 };

static inline void stop(int status, const char *what)
{
    fprintf(stderr, "%s\n", what);
    exit(status);
}

static inline bool bit(uint64_t number, int index)
{
    return number >> index & 1;
}

/* The bits from `low` to below `end`. */
static inline uint64_t bits(int low, int end)
{
    return low < end ? ~0ull >> (64 - end + low) << low : 0;
}

/* The low `width` bits of a number, and the highest of them again above. */
static inline uint64_t sign_extended(uint64_t number, int width)
{
    return (uint64_t)((int64_t)(number << (64 - width)) >> (64 - width));
}

/* ---- Files ---- */

/* A file in memory. An LF and zeros stand behind it, so that a line can be looked at before its end is known. */
struct file {
    unsigned char *bytes;
    size_t size;
};

static inline struct file read_file(const char *path)
{
    enum { BEHIND = 16 };
    struct stat about;
    int file = open(path, O_RDONLY);
    if (file < 0 || fstat(file, &about) < 0)
        stop(NOT_READ, path);
    size_t room = (size_t)about.st_size;
    struct file whole = {malloc(room + BEHIND), 0};
    if (whole.bytes == NULL)
        stop(NO_ROOM, path);
    ssize_t count;
    while ((count = read(file, whole.bytes + whole.size, room - whole.size)) > 0)
        whole.size += (size_t)count;
    if (count < 0)
        stop(NOT_READ, path);
    close(file);
    memset(whole.bytes + whole.size, 0, BEHIND);
    whole.bytes[whole.size] = '\n';
    return whole;
}

/* ---- The core ---- */

static inline uint64_t number_at(const unsigned char *bytes, size_t size)
{
    uint64_t number = 0;
    memcpy(&number, bytes, size);
    return number;
}

struct segment {
    uint64_t start, size;
    const unsigned char *bytes;
};

struct memory {
    struct segment *segments;
    size_t count;
};

/* The segments of a core, in the order of their headers. Notes are passed over unread. */
static inline struct memory memory_of(struct file core)
{
    if (core.size < 64 || memcmp(core.bytes, "\177ELF\2\1", 6) != 0)
        stop(BAD_CORE, "no ELF core");
    uint64_t place = number_at(core.bytes + 32, 8), count = number_at(core.bytes + 56, 2);
    if (place > core.size || core.size - place < 56 * count)
        stop(BAD_CORE, "program headers past the end");
    struct memory memory = {calloc(count + 1, sizeof(struct segment)), 0};
    if (memory.segments == NULL)
        stop(NO_ROOM, "no room for segments");
    for (size_t index = 0; index < count; index++) {
        const unsigned char *header = core.bytes + place + 56 * index;
        uint64_t offset = number_at(header + 8, 8), start = number_at(header + 24, 8), size = number_at(header + 32, 8);
        if (number_at(header, 4) != 1 || size == 0 || start == UINT64_MAX)
            continue;
        if (offset > core.size || core.size - offset < size)
            stop(BAD_CORE, "segment past the end");
        memory.segments[memory.count++] = (struct segment){start, size, core.bytes + offset};
    }
    return memory;
}

/* An entry that no segment holds whole: byte by byte. */
static inline bool scattered_entry(const struct memory *memory, uint64_t address, uint64_t *entry)
{
    *entry = 0;
    for (uint64_t index = 0; index < 8; index++) {
        const struct segment *segment = memory->segments, *end = segment + memory->count;
        while (segment < end && address + index - segment->start >= segment->size)
            segment++;
        if (segment == end)
            return false;
        *entry |= (uint64_t)segment->bytes[address + index - segment->start] << 8 * index;
    }
    return true;
}

/* The eight bytes at an address, where all are known. */
static inline bool known_entry(const struct memory *memory, uint64_t address, uint64_t *entry)
{
    for (const struct segment *segment = memory->segments; segment < memory->segments + memory->count; segment++) {
        uint64_t offset = address - segment->start;
        if (offset < segment->size && segment->size - offset >= 8) {
            *entry = number_at(segment->bytes + offset, 8);
            return true;
        }
        if (offset < segment->size || -offset < 8)
            return scattered_entry(memory, address, entry);
    }
    return false;
}

/* ---- Words of a line ---- */

/* One more than the value of a digit, and 0 for every other byte. */
static const unsigned char DIGIT[256] = {
    ['0'] = 1, 2, 3, 4, 5, 6, 7, 8, 9, 10, ['A'] = 11, 12, 13, 14, 15, 16, ['a'] = 11, 12, 13, 14, 15, 16,
};

/* Each of these takes a word or a mark at `*at`, and moves behind it. */
static inline bool take_byte(const unsigned char **at, unsigned char byte)
{
    return *(*at)++ == byte;
}

static inline bool take_word(const unsigned char **at, const char *word)
{
    size_t size = strlen(word);
    if (memcmp(*at, word, size) != 0)
        return false;
    *at += size;
    return true;
}

static inline bool take_number(const unsigned char **at, uint64_t *number)
{
    const unsigned char *next = *at;
    unsigned digit;
    *number = 0;
    if (next[0] == '0' && next[1] == 'x') {
        const unsigned char *start = next += 2;
        for (; (digit = DIGIT[*next]) != 0; next++)
            *number = *number << 4 | (digit - 1);
        *at = next;
        return next > start && next - start <= 16;
    }
    for (; (digit = DIGIT[*next]) != 0 && digit <= 10; next++)
        if (__builtin_mul_overflow(*number, 10, number) || __builtin_add_overflow(*number, digit - 1, number))
            return false;
    size_t digits = (size_t)(next - *at);
    *at = next;
    return digits > 0 && digits <= 20;
}

/* ---- The machine and its processors ---- */

enum { ALL_PROCESSORS = 64 };

/* The registers as they are used. */
struct processor {
    uint64_t number;
    uint64_t root;
    int levels, canonical_width;
    /* The reserved bits of entries of each level, of those that name a table and of those that map a page. */
    uint64_t table_reserved[6], page_reserved[6];
    /* The widths of masking, 64 where there is none. */
    int low_mask, high_mask;
    bool ac, wp, smep, smap, lass;
    uint64_t user_keys, supervisor_keys;
};

struct machine {
    int width;
    bool big_pages, stated;
    struct processor processors[ALL_PROCESSORS];
    size_t count;
};

static const struct machine UNSTATED = {.width = 52, .big_pages = true};

static inline const struct processor *processor_of(const struct machine *machine, uint64_t number)
{
    for (size_t index = 0; index < machine->count; index++)
        if (machine->processors[index].number == number)
            return &machine->processors[index];
    return NULL;
}

/* A `machine` line behind its first word. */
static inline bool take_machine(const unsigned char **at, struct machine *machine)
{
    uint64_t width, big;
    if (!take_number(at, &width) || !take_byte(at, ' ') || !take_number(at, &big) || !take_byte(at, '\n'))
        return false;
    if (width < 32 || width > 52 || big > 1 || machine->stated || machine->count > 0)
        return false;
    machine->width = (int)width;
    machine->big_pages = big == 1;
    machine->stated = true;
    return true;
}

static inline void fill_reserved(struct processor *processor, const struct machine *machine, bool xd_on)
{
    uint64_t everywhere = bits(machine->width, 52) | (xd_on ? 0 : bits(63, 64));
    for (int level = 1; level <= 5; level++)
        processor->table_reserved[level] = processor->page_reserved[level] = everywhere;
    processor->table_reserved[4] |= bits(7, 8);
    processor->table_reserved[5] |= bits(7, 8);
    processor->page_reserved[2] |= bits(13, 21);
    processor->page_reserved[3] |= bits(13, 30) | (machine->big_pages ? 0 : bits(7, 8));
}

/* A `cpu` line behind its first word. */
static inline bool take_cpu(const unsigned char **at, struct machine *machine)
{
    enum { NUMBER, CR0, CR3, CR4, EFER, RFLAGS, PKRU, PKRS, WORDS };
    uint64_t words[WORDS];
    for (int index = 0; index < WORDS; index++)
        if (!take_number(at, &words[index]) || !take_byte(at, index + 1 < WORDS ? ' ' : '\n'))
            return false;
    uint64_t cr0 = words[CR0], cr3 = words[CR3], cr4 = words[CR4], efer = words[EFER];
    if ((words[NUMBER] | words[PKRU] | words[PKRS]) >> 32 != 0 || processor_of(machine, words[NUMBER]) != NULL)
        return false;
    if (machine->count == ALL_PROCESSORS || !bit(cr0, 0) || !bit(cr0, 31) || !bit(efer, 8) || !bit(efer, 10))
        return false;
    if (!bit(cr4, 5) || (cr3 & (bits(machine->width, 61) | bits(63, 64))) != 0)
        return false;
    struct processor *processor = &machine->processors[machine->count++];
    *processor = (struct processor){
        .number = words[NUMBER],
        .root = cr3 & bits(12, 52),
        .levels = bit(cr4, 12) ? 5 : 4,
        .canonical_width = bit(cr4, 12) ? 57 : 48,
        .low_mask = bit(cr3, 61) ? 57 : bit(cr3, 62) ? 48 : 64,
        .high_mask = !bit(cr4, 28) ? 64 : bit(cr4, 12) ? 57 : 48,
        .ac = bit(words[RFLAGS], 18),
        .wp = bit(cr0, 16),
        .smep = bit(cr4, 20),
        .smap = bit(cr4, 21),
        .lass = bit(cr4, 27),
        .user_keys = bit(cr4, 22) ? words[PKRU] : 0,
        .supervisor_keys = bit(cr4, 24) ? words[PKRS] : 0,
    };
    fill_reserved(processor, machine, bit(efer, 11));
    return true;
}

/* A `machine` or a `cpu` line. */
static inline bool take_state_line(const unsigned char **at, struct machine *machine)
{
    if (take_word(at, "machine "))
        return take_machine(at, machine);
    return take_word(at, "cpu ") && take_cpu(at, machine);
}

/* Moves past an empty line or a comment. */
static inline bool take_passed_over(const unsigned char **at, const unsigned char *end)
{
    enum { LINE_LIMIT = 8300 };
    if (**at == '\n') {
        ++*at;
        return true;
    }
    if (**at != '#')
        return false;
    const unsigned char *line_end = memchr(*at, '\n', (size_t)(end - *at) + 1);
    if (line_end - *at > LINE_LIMIT)
        return false;
    *at = line_end + 1;
    return true;
}

/* ---- Entries ---- */

static inline int low_bits(int level)
{
    return 12 + 9 * (level - 1);
}

static inline uint64_t place_of_entry(uint64_t table, int level, uint64_t address)
{
    return table + 8 * (address >> low_bits(level) & 511);
}

static inline bool maps_page(uint64_t entry, int level)
{
    return level == 1 || (level <= 3 && bit(entry, 7));
}

static inline bool has_reserved_bit(const struct processor *processor, uint64_t entry, int level)
{
    const uint64_t *reserved = maps_page(entry, level) ? processor->page_reserved : processor->table_reserved;
    return (entry & reserved[level]) != 0;
}
