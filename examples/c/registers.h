/* The memory of these examples: slots and two tables as arrays, and look-ups by a plain loop over them. */
#ifndef REGISTERS_H
#define REGISTERS_H

#include "tcam.h"

#define SLOTS 64
#define PORTS 65536

struct slot {
    bool used;
    uint32_t value[TCAM_LANES];
    uint32_t mask[TCAM_LANES];
    uint32_t result;
    struct tcam_tag tag;
};

struct registers {
    struct slot slots[SLOTS];
    uint16_t tables[2][PORTS];
    unsigned calls;
    uint32_t broken; /* one more than a slot that takes no write, or 0 */
};

/* Makes a write, but every seventh call fails: the write of every other failure was made all the same. A write to a
 * broken slot fails each time, and does nothing. */
bool registers_put(struct registers *registers, const struct tcam_write *write);

/* What the memory answers to a packet: a result, or -1. */
int64_t registers_answer(const struct registers *registers, const struct tcam_key *key);

/* The same in two steps, as a pipeline makes them: a packet's search word by the tables as they are, and what the slots
 * answer to the word. Where writes come between, the word may have the tables' earlier words in it. */
void registers_translate(const struct registers *registers, const struct tcam_key *key, uint32_t word[TCAM_LANES]);
int64_t registers_search(const struct registers *registers, const uint32_t word[TCAM_LANES]);

#endif
