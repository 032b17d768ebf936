#include "lists.h"

static bool in_prefix(uint32_t address, uint32_t prefix, uint8_t length) {
    return length == 0 || (address ^ prefix) >> (32 - length) == 0;
}

static bool matches(const struct tcam_rule *rule, const struct tcam_key *key) {
    return in_prefix(key->source, rule->source, rule->source_length) &&
           in_prefix(key->destination, rule->destination, rule->destination_length) &&
           (rule->protocol == TCAM_ANY_PROTOCOL || rule->protocol == key->protocol) &&
           rule->source_port_first <= key->source_port && key->source_port <= rule->source_port_last &&
           rule->destination_port_first <= key->destination_port &&
           key->destination_port <= rule->destination_port_last;
}

int64_t list_answer(const struct list *list, const struct tcam_key *key) {
    for (int at = 0; at < NUMBERS; at++)
        if (list->there[at] && matches(&list->rules[at], key)) return list->rules[at].result;
    return -1;
}

static bool is_told(const struct tcam_rule *rule, const struct tcam_stored *told) {
    return tcam_rule_number(told->tag) == rule->number && !tcam_route_of(told->tag, NULL, NULL) &&
           told->source.upper == (uint64_t)rule->source << 32 && told->source.lower == 0 &&
           told->destination.upper == (uint64_t)rule->destination << 32 && told->destination.lower == 0 &&
           told->source_length == rule->source_length && told->destination_length == rule->destination_length &&
           told->protocol == rule->protocol && told->source_port_first == rule->source_port_first &&
           told->source_port_last == rule->source_port_last &&
           told->destination_port_first == rule->destination_port_first &&
           told->destination_port_last == rule->destination_port_last && told->result == rule->result;
}

bool list_is_told(const struct list *list, struct tcam_manager *manager) {
    struct tcam_stored told;
    uint32_t cursor = 0, count = 0;
    for (int at = 0; at < NUMBERS; at++) {
        if (!list->there[at]) continue;
        if (tcam_rules(manager, &cursor, &told) != TCAM_OK || cursor != ++count) return false;
        if (!is_told(&list->rules[at], &told)) return false;
    }
    return tcam_rules(manager, &cursor, &told) == TCAM_NO_RULE && cursor == count;
}

/* Two prefixes share an address where they agree in the bits that both have. */
static bool prefixes_meet(uint32_t prefix, uint8_t length, uint32_t other, uint8_t other_length) {
    return in_prefix(other, prefix, length < other_length ? length : other_length);
}

static bool overlap(const struct tcam_rule *a, const struct tcam_rule *b) {
    return prefixes_meet(a->source, a->source_length, b->source, b->source_length) &&
           prefixes_meet(a->destination, a->destination_length, b->destination, b->destination_length) &&
           (a->protocol == TCAM_ANY_PROTOCOL || b->protocol == TCAM_ANY_PROTOCOL || a->protocol == b->protocol) &&
           a->source_port_first <= b->source_port_last && b->source_port_first <= a->source_port_last &&
           a->destination_port_first <= b->destination_port_last &&
           b->destination_port_first <= a->destination_port_last;
}

uint32_t list_longest_chain(const struct list *list) {
    uint32_t ending[NUMBERS] = {0}, longest = 0;
    for (int at = 0; at < NUMBERS; at++) {
        if (!list->there[at]) continue;
        for (int upper = 0; upper < at; upper++)
            if (list->there[upper] && ending[upper] > ending[at] && overlap(&list->rules[upper], &list->rules[at]))
                ending[at] = ending[upper];
        if (++ending[at] > longest) longest = ending[at];
    }
    return longest;
}

uint32_t below(struct draws *draws, uint32_t bound) {
    draws->seed = draws->seed * 1664525u + 1013904223u;
    return (draws->seed >> 8) % bound;
}

static uint32_t address(struct draws *draws, uint8_t length) {
    uint32_t any = 0x0a000000u;
    any |= below(draws, 4) << 22;
    any |= below(draws, 4) << 14;
    any |= below(draws, 4);
    return length == 0 ? 0 : any >> (32 - length) << (32 - length);
}

/* The ports are low ones, since a range takes a word of a table for each. */
static uint16_t port(struct draws *draws) {
    static const uint16_t ports[] = {0, 1, 2, 3, 5, 8, 9, 12, 17, 30};
    return ports[below(draws, sizeof ports / sizeof *ports)];
}

struct tcam_rule rule_at_random(struct draws *draws, uint32_t number, uint32_t results) {
    struct tcam_rule rule = {.number = number, .result = below(draws, results)};
    rule.source_length = (uint8_t)(below(draws, 2) * 16);
    rule.destination_length = (uint8_t)(below(draws, 3) * 12);
    rule.source = address(draws, rule.source_length);
    rule.destination = address(draws, rule.destination_length);
    rule.protocol = (uint16_t)(below(draws, 2) ? TCAM_ANY_PROTOCOL : 6 + below(draws, 2) * 11);
    rule.source_port_last = 65535;
    uint16_t one = port(draws), other = port(draws);
    rule.destination_port_first = one < other ? one : other;
    rule.destination_port_last = one < other ? other : one;
    return rule;
}

struct tcam_key key_at_random(struct draws *draws) {
    struct tcam_key key;
    key.source = address(draws, 32);
    key.destination = address(draws, 32);
    key.source_port = port(draws);
    key.destination_port = port(draws);
    key.protocol = (uint8_t)(6 + below(draws, 2) * 11);
    return key;
}
