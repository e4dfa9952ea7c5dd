/* Numbers that look random and are the same in each run (xorshift). */
#include <stdint.h>

static uint64_t random_number(void)
{
    static uint64_t state = 88172645463325252u;
    state ^= state << 13;
    state ^= state >> 7;
    state ^= state << 17;
    return state;
}
