/* Answers the `ask` lines of a log about a core: asks CORE LOG

   Knows `machine`, `cpu` and `ask` lines and comments, and stops at every other line. */
#include "answers.h"

/* Memory as the core has it. */
struct view {
    struct memory memory;
};

static inline bool seen_entry(const struct view *view, uint64_t address, uint64_t *entry)
{
    return known_entry(&view->memory, address, entry);
}

int main(int argc, char **argv)
{
    if (argc != 3)
        stop(BAD_USE, "usage: asks CORE LOG");
    struct file core = read_file(argv[1]), log = read_file(argv[2]);
    struct view view = {memory_of(core)};
    struct machine machine = UNSTATED;
    static struct output output;
    bool asked = false;
    const unsigned char *at = log.bytes, *end = at + log.size;
    while (at < end) {
        struct question question;
        if (take_word(&at, "ask ")) {
            if (!take_ask(&at, &machine, &question))
                stop(BAD_LOG, "asks: a bad ask line");
            put_answer(&output, answer(&view, question.processor, question.access, question.pointer));
            asked = true;
        } else if (!take_passed_over(&at, end) && (asked || !take_state_line(&at, &machine)))
            stop(BAD_LOG, "asks: a bad line");
    }
    write_out(&output);
    return 0;
}
