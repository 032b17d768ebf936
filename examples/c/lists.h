/* Access lists at random, and what a list answers by a plain loop: the library has no part in it. */
#ifndef LISTS_H
#define LISTS_H

#include "tcam.h"

/* Rules in their order: the one at i has the number i + 1. */
#define NUMBERS 24
struct list {
    bool there[NUMBERS];
    struct tcam_rule rules[NUMBERS];
};

/* What a list answers: the result of the first rule that matches, or -1. */
int64_t list_answer(const struct list *list, const struct tcam_key *key);

/* Whether a manager tells the rules of a list and no others, in their order. */
bool list_is_told(const struct list *list, struct tcam_manager *manager);

/* The length of its longest overlap chain, by all ends of chains from its first rule on. */
uint32_t list_longest_chain(const struct list *list);

/* Numbers at random, the same ones behind the same seed: one below a bound, a rule with a number and a result below a
 * bound, and a packet, of few addresses and ports, so that rules overlap. */
struct draws {
    uint32_t seed;
};
uint32_t below(struct draws *draws, uint32_t bound);
struct tcam_rule rule_at_random(struct draws *draws, uint32_t number, uint32_t results);
struct tcam_key key_at_random(struct draws *draws);

#endif
