/* Writes a log of invalidations: make_invalidations PROCESSORS COUNT

   State lines of so many processors, with PCIDs, stand before COUNT lines by each of them in turn: INVLPG, INVPCID of
   each type, and MOV to CR3 with another PCID and another root. All is random, and always the same. To standard error
   goes how many of the lines remove something, and how many lead to another PCID or root. */
#include <inttypes.h>
#include <stdio.h>
#include <stdlib.h>

#include "random_numbers.h"

enum { PROCESSORS = 64, PCIDS = 16, ROOTS = 1024 };

int main(int count, char **words)
{
    if (count != 3) {
        fprintf(stderr, "usage: make_invalidations PROCESSORS COUNT\n");
        return 2;
    }
    uint64_t processors = strtoull(words[1], NULL, 10), lines = strtoull(words[2], NULL, 10);
    if (processors == 0 || processors > PROCESSORS)
        return 2;
    uint64_t present[PROCESSORS], removals = 0, stays = processors;
    puts("machine 40 1");
    for (uint64_t one = 0; one < processors; one++) {
        present[one] = 0x1000;
        printf("cpu %" PRIu64 " 0x80010001 0x1000 0x20020 0xd00 0x2 0x0 0x0\n", one);
    }
    for (uint64_t line = 0; line < lines; line++) {
        uint64_t one = line % processors, pcid = random_number() % PCIDS;
        uint64_t address = random_number() % 65536 * 4096;
        switch (random_number() % 4) {
        case 0:
        case 1:
            printf("invlpg %" PRIu64 " 0x%" PRIx64 "\n", one, address);
            removals++;
            break;
        case 2:
            printf("invpcid %" PRIu64 " %" PRIu64 " %" PRIu64 " 0x%" PRIx64 "\n", one, random_number() % 4, pcid, address);
            removals++;
            break;
        default: {
            uint64_t value = random_number() % ROOTS * 4096 + pcid;
            printf("set %" PRIu64 " cr3 0x%" PRIx64 "\n", one, value);
            removals++;
            stays += value != present[one];
            present[one] = value;
        }
        }
    }
    fprintf(stderr, "%" PRIu64 " %" PRIu64 "\n", removals, stays);
    return 0;
}
