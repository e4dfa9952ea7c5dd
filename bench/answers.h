/* What asks.c and writes.c share: rules, answers, the output, and `ask` lines. Lines are written in pieces of 65,536
   bytes and more, as the program writes them. */
#include "core_and_log.h"

/* Memory as a program sees it, and the entry at an address, where that is known. Each program has its own. */
struct view;
static inline bool seen_entry(const struct view *view, uint64_t address, uint64_t *entry);

/* What an access is, beside a read by a supervisor. KIND says that the letters are those of a kind. */
enum access { KIND = 1, USER = 2, IMPLICIT = 4, WRITE = 8, FETCH = 16 };

static const unsigned char WHO[256] = {['u'] = KIND | USER, ['s'] = KIND, ['i'] = KIND | IMPLICIT};
static const unsigned char HOW[256] = {['r'] = KIND, ['w'] = KIND | WRITE, ['x'] = KIND | FETCH};

enum reason {
    GRANTED,
    NOT_CANONICAL,
    LASS,
    UNKNOWN,
    ABSENT,
    RESERVED,
    NOT_USER,
    SMEP,
    SMAP,
    NOT_WRITE,
    XD,
    KEY,
};

/* `number` is the physical address of what is granted, and the level of what is unknown, absent or reserved. */
struct answer {
    enum reason reason;
    uint64_t number;
};

/* ---- Rules ---- */

static inline bool lass_refuses(const struct processor *processor, unsigned access, uint64_t address)
{
    bool high = bit(address, 63);
    if (access & USER)
        return high;
    if (high)
        return false;
    if (access & FETCH)
        return true;
    return processor->smap && (access & IMPLICIT || !processor->ac);
}

/* The address of a pointer, where it has one. */
static inline enum reason pointed(const struct processor *processor, unsigned access, uint64_t pointer,
                                  uint64_t *address)
{
    *address = pointer;
    if (!(access & (IMPLICIT | FETCH))) {
        *address = sign_extended(pointer, bit(pointer, 63) ? processor->high_mask : processor->low_mask);
        if (bit(*address ^ pointer, 63))
            return NOT_CANONICAL;
    }
    if (sign_extended(*address, processor->canonical_width) != *address)
        return NOT_CANONICAL;
    return processor->lass && lass_refuses(processor, access, *address) ? LASS : GRANTED;
}

/* The page that an address is in. */
struct page {
    bool write, user, xd;
    unsigned key;
};

static inline enum reason refusal(const struct processor *processor, unsigned access, struct page page)
{
    bool writes = access & WRITE && (access & USER || processor->wp);
    if (access & USER && !page.user)
        return NOT_USER;
    if (page.user && !(access & USER)) {
        if (access & FETCH) {
            if (processor->smep)
                return SMEP;
        } else if (processor->smap && (access & IMPLICIT || !processor->ac))
            return SMAP;
    }
    if (writes && !page.write)
        return NOT_WRITE;
    if (access & FETCH)
        return page.xd ? XD : GRANTED;
    uint64_t disable = (page.user ? processor->user_keys : processor->supervisor_keys) >> 2 * page.key;
    return bit(disable, 0) || (bit(disable, 1) && writes) ? KEY : GRANTED;
}

static inline struct answer answer(const struct view *view, const struct processor *processor, unsigned access,
                                   uint64_t pointer)
{
    uint64_t address;
    enum reason reason = pointed(processor, access, pointer, &address);
    if (reason != GRANTED)
        return (struct answer){reason, 0};
    uint64_t table = processor->root, all = ~0ull, some = 0;
    for (int level = processor->levels;; level--) {
        uint64_t entry;
        if (!seen_entry(view, place_of_entry(table, level, address), &entry))
            return (struct answer){UNKNOWN, (uint64_t)level};
        if (!bit(entry, 0))
            return (struct answer){ABSENT, (uint64_t)level};
        if (has_reserved_bit(processor, entry, level))
            return (struct answer){RESERVED, (uint64_t)level};
        all &= entry;
        some |= entry;
        if (maps_page(entry, level)) {
            struct page page = {bit(all, 1), bit(all, 2), bit(some, 63), entry >> 59 & 15};
            uint64_t low = bits(0, low_bits(level));
            return (struct answer){refusal(processor, access, page), (entry & bits(0, 52) & ~low) | (address & low)};
        }
        table = entry & bits(12, 52);
    }
}

/* ---- Output ---- */

enum { ENOUGH = 65536, TEXT_ROOM = 24, LINE_ROOM = 64 };

/* Lines that wait to be written. */
struct output {
    char bytes[ENOUGH + LINE_ROOM];
    size_t size;
};

static const struct {
    char bytes[TEXT_ROOM];
    unsigned char size;
} TEXTS[] = {
#define TEXT(text) {text, sizeof text - 1}
    [GRANTED] = TEXT("granted 0x"),
    [NOT_CANONICAL] = TEXT("denied not-canonical"),
    [LASS] = TEXT("denied lass"),
    [UNKNOWN] = TEXT("denied unknown "),
    [ABSENT] = TEXT("denied absent "),
    [RESERVED] = TEXT("denied reserved "),
    [NOT_USER] = TEXT("denied user"),
    [SMEP] = TEXT("denied smep"),
    [SMAP] = TEXT("denied smap"),
    [NOT_WRITE] = TEXT("denied write"),
    [XD] = TEXT("denied xd"),
    [KEY] = TEXT("denied key"),
#undef TEXT
};

static inline void write_out(struct output *output)
{
    size_t done = 0;
    while (done < output->size) {
        ssize_t count = write(STDOUT_FILENO, output->bytes + done, output->size - done);
        if (count <= 0)
            stop(NOT_WRITTEN, "asks: not written");
        done += (size_t)count;
    }
    output->size = 0;
}

static inline char *put_hexadecimal(char *at, uint64_t number)
{
    int digits = (67 - __builtin_clzll(number | 1)) / 4;
    for (int index = digits - 1; index >= 0; index--, number >>= 4)
        at[index] = "0123456789abcdef"[number & 15];
    return at + digits;
}

static inline void put_answer(struct output *output, struct answer answer)
{
    char *start = output->bytes + output->size, *at = start;
    memcpy(at, TEXTS[answer.reason].bytes, TEXT_ROOM);
    at += TEXTS[answer.reason].size;
    if (answer.reason == GRANTED)
        at = put_hexadecimal(at, answer.number);
    else if (answer.reason >= UNKNOWN && answer.reason <= RESERVED)
        *at++ = (char)('0' + answer.number);
    *at++ = '\n';
    output->size += (size_t)(at - start);
    if (output->size >= ENOUGH)
        write_out(output);
}

/* ---- Lines ---- */

struct question {
    const struct processor *processor;
    unsigned access;
    uint64_t pointer;
};

/* An `ask` line behind its first word. */
static inline bool take_ask(const unsigned char **at, const struct machine *machine, struct question *question)
{
    uint64_t number;
    if (!take_number(at, &number) || !take_byte(at, ' '))
        return false;
    unsigned who = WHO[*(*at)++], how = HOW[*(*at)++];
    if (!(who & how & KIND) || (who & IMPLICIT && how & FETCH))
        return false;
    if (!take_byte(at, ' ') || !take_number(at, &question->pointer) || !take_byte(at, '\n'))
        return false;
    question->access = who | how;
    question->processor = processor_of(machine, number);
    return question->processor != NULL;
}
