/* IPv6, with IPv4 beside it in one manager: routes and rules of an access list of both versions come, go and get
 * other results in random commits, over an array of registers whose every seventh write fails. Between every two
 * writes packets of both versions are looked up in the registers and asked of the library: each gets the answer of
 * the old rules or that of the new ones, by a plain loop over 128 bits. The addresses keep the versions apart:
 * 2001:db8::/32 is no address of 10.0.0.0/8. */
#include "lists.h"
#include "registers.h"
#include "tries.h"

#include <string.h>

/* A rule of either version, or a route, whose number is 0, with addresses of 128 bits. */
struct entry {
    bool there;
    bool six;
    struct tcam_rule6 rule;
};

/* Routes, and rules: the one at i has the number i + 1 - ROUTES. */
#define ROUTES 16
#define ENTRIES 40
struct set {
    struct entry entries[ENTRIES];
};

static struct draws draws = {6};
static unsigned versions[2];

static bool in_prefix(struct tcam_address address, struct tcam_address prefix, uint8_t length) {
    for (int bit = 0; bit < length; bit++) {
        uint64_t off = bit < 64 ? (address.upper ^ prefix.upper) << bit : (address.lower ^ prefix.lower) << (bit - 64);
        if (off >> 63) return false;
    }
    return true;
}

static bool matches(const struct tcam_rule6 *rule, const struct tcam_key6 *key) {
    return in_prefix(key->source, rule->source, rule->source_length) &&
           in_prefix(key->destination, rule->destination, rule->destination_length) &&
           (rule->protocol == TCAM_ANY_PROTOCOL || rule->protocol == key->protocol) &&
           rule->source_port_first <= key->source_port && key->source_port <= rule->source_port_last &&
           rule->destination_port_first <= key->destination_port && key->destination_port <= rule->destination_port_last;
}

/* The rule of a set that decides, or NULL: of the routes that match the longest one, but that of length 0, then the rule of
 * the lowest number, then the route of length 0. */
static const struct entry *decides(const struct set *set, const struct tcam_key6 *key) {
    const struct entry *best = NULL, *last = NULL;
    for (int i = 0; i < ENTRIES; i++) {
        const struct entry *entry = &set->entries[i];
        if (!entry->there || !matches(&entry->rule, key)) continue;
        if (i < ROUTES && entry->rule.destination_length == 0) {
            last = entry;
        } else if (i < ROUTES) {
            if (!best || entry->rule.destination_length > best->rule.destination_length) best = entry;
        } else if (!best) {
            return entry;
        }
    }
    return best ? best : last;
}

static int64_t set_answer(const struct set *set, const struct tcam_key6 *key) {
    const struct entry *entry = decides(set, key);
    return entry ? (int64_t)entry->rule.result : -1;
}

/* An address of few ones of either version, with no bit past a length. */
static struct tcam_address address(bool six, uint8_t length) {
    struct tcam_address any = {0x0a00000000000000u | (uint64_t)below(&draws, 4) << 54 | (uint64_t)below(&draws, 4) << 32, 0};
    if (six) {
        any.upper = 0x20010db800000000u | below(&draws, 4) << 16 | below(&draws, 4);
        any.lower = (uint64_t)below(&draws, 4) << 62 | below(&draws, 4);
    }
    if (length <= 64) any.lower = 0;
    if (length == 0) any.upper = 0;
    if (length > 0 && length < 64) any.upper = any.upper >> (64 - length) << (64 - length);
    if (length > 64 && length < 128) any.lower = any.lower >> (128 - length) << (128 - length);
    return any;
}

static struct tcam_key6 key_at_random_of(bool six) {
    struct tcam_key6 key = {.source_port = (uint16_t)below(&draws, 4), .protocol = (uint8_t)(6 + 11 * below(&draws, 2))};
    key.destination_port = (uint16_t)below(&draws, 12);
    key.source = address(six, six ? 128 : 32);
    key.destination = address(six, six ? 128 : 32);
    return key;
}

/* Entry i of a set: the first route is that of length 0, and no two routes have the same prefix. */
static struct entry entry_at_random(const struct set *set, int i) {
    static const uint8_t lengths[2][4] = {{8, 11, 30, 32}, {32, 47, 66, 128}};
    struct entry entry = {.there = true, .six = i == 0 ? false : below(&draws, 2)};
    struct tcam_rule6 *rule = &entry.rule;
    *rule = (struct tcam_rule6){.protocol = TCAM_ANY_PROTOCOL, .result = below(&draws, 1000)};
    rule->source_port_last = rule->destination_port_last = 65535;
    if (i > 0) rule->destination_length = lengths[entry.six][below(&draws, 4)];
    rule->destination = address(entry.six, rule->destination_length);
    if (i < ROUTES) {
        for (int other = 0; other < ROUTES; other++) {
            const struct tcam_rule6 *route = &set->entries[other].rule;
            if (other != i && set->entries[other].there && route->destination_length == rule->destination_length &&
                in_prefix(route->destination, rule->destination, rule->destination_length))
                entry.there = false;
        }
        return entry;
    }
    rule->number = (uint32_t)(i + 1 - ROUTES);
    rule->source_length = below(&draws, 2) ? 0 : lengths[entry.six][below(&draws, 3)];
    rule->source = address(entry.six, rule->source_length);
    if (below(&draws, 2)) rule->protocol = (uint16_t)(6 + 11 * below(&draws, 2));
    if (below(&draws, 3) == 0) rule->destination_port_first = 1, rule->destination_port_last = 5 + (uint16_t)(i % 3);
    return entry;
}

static enum tcam_error add(struct tcam_manager *manager, const struct entry *entry) {
    const struct tcam_rule6 *rule = &entry->rule;
    uint32_t destination = (uint32_t)(rule->destination.upper >> 32);
    if (entry->six && rule->number > 0) return tcam_add_rule6(manager, rule);
    if (entry->six) return tcam_add_route6(manager, rule->destination, rule->destination_length, rule->result);
    if (rule->number == 0) return tcam_add_route(manager, destination, rule->destination_length, rule->result);
    struct tcam_rule four = {.number = rule->number, .source = (uint32_t)(rule->source.upper >> 32),
                             .destination = destination, .source_length = rule->source_length,
                             .destination_length = rule->destination_length, .protocol = rule->protocol,
                             .source_port_first = rule->source_port_first, .source_port_last = rule->source_port_last,
                             .destination_port_first = rule->destination_port_first,
                             .destination_port_last = rule->destination_port_last, .result = rule->result};
    return tcam_add_rule(manager, &four);
}

static enum tcam_error set_result(struct tcam_manager *manager, const struct entry *entry) {
    const struct tcam_rule6 *rule = &entry->rule;
    if (rule->number > 0) return tcam_set_rule(manager, rule->number, rule->result);
    if (entry->six) return tcam_set_route6(manager, rule->destination, rule->destination_length, rule->result);
    return tcam_set_route(manager, (uint32_t)(rule->destination.upper >> 32), rule->destination_length, rule->result);
}

static enum tcam_error del(struct tcam_manager *manager, const struct entry *entry) {
    const struct tcam_rule6 *rule = &entry->rule;
    if (rule->number > 0) return tcam_del_rule(manager, rule->number);
    if (entry->six) return tcam_del_route6(manager, rule->destination, rule->destination_length);
    return tcam_del_route(manager, (uint32_t)(rule->destination.upper >> 32), rule->destination_length);
}

/* Some changes at random, in the batch and in a set. */
static void change(struct tcam_manager *manager, struct set *set) {
    bool named[ENTRIES] = {false};
    for (uint32_t changes = 1 + below(&draws, 6); changes > 0; changes--) {
        int at = (int)below(&draws, ENTRIES);
        struct entry *entry = &set->entries[at];
        if (named[at]) continue;
        named[at] = true;
        if (!entry->there) {
            struct entry come = entry_at_random(set, at);
            if (!come.there) continue;
            *entry = come;
            CHECK(add(manager, entry) == TCAM_OK);
        } else if (below(&draws, 2)) {
            entry->rule.result = below(&draws, 1000);
            CHECK(set_result(manager, entry) == TCAM_OK);
        } else {
            /* it stands in the new set as gone, and no route of its prefix comes in this batch */
            CHECK(del(manager, entry) == TCAM_OK);
            entry->there = false;
            return;
        }
    }
}

/* What the registers answer to a packet of either version. */
static int64_t memory_answer(const struct registers *registers, const struct tcam_key6 *key) {
    uint32_t word[TCAM_LANES];
    struct tcam_key ports = {.source_port = key->source_port, .destination_port = key->destination_port,
                             .protocol = key->protocol};
    registers_translate(registers, &ports, word);
    for (int lane = 0; lane < 2; lane++) {
        word[lane] = (uint32_t)(key->source.upper >> (32 - 32 * lane));
        word[2 + lane] = (uint32_t)(key->source.lower >> (32 - 32 * lane));
        word[4 + lane] = (uint32_t)(key->destination.upper >> (32 - 32 * lane));
        word[6 + lane] = (uint32_t)(key->destination.lower >> (32 - 32 * lane));
    }
    return registers_search(registers, word);
}

/* What the library answers, which is the same where a packet of IPv4 is asked as one. */
static int64_t library_answer(struct tcam_manager *manager, const struct tcam_key6 *key, bool six) {
    struct tcam_answer answer, other;
    CHECK(tcam_answer6(manager, key, &answer) == TCAM_OK);
    if (!six) {
        struct tcam_key four = {.source = (uint32_t)(key->source.upper >> 32), .protocol = key->protocol,
                                .destination = (uint32_t)(key->destination.upper >> 32),
                                .source_port = key->source_port, .destination_port = key->destination_port};
        CHECK(tcam_answer(manager, &four, &other) == TCAM_OK && other.found == answer.found);
        CHECK(other.result == answer.result && same_tag(other.tag, answer.tag));
    }
    return answer.found ? (int64_t)answer.result : -1;
}

static void compare(struct tcam_manager *manager, const struct registers *registers, const struct set *old,
                    const struct set *new) {
    for (int i = 0; i < 24; i++) {
        bool six = i % 2;
        struct tcam_key6 key = key_at_random_of(six);
        int64_t was = set_answer(old, &key), is = set_answer(new, &key);
        int64_t got = memory_answer(registers, &key), told = library_answer(manager, &key, six);
        CHECK((got == was || got == is) && (told == was || told == is));
        versions[six] += got >= 0;
    }
}

static bool same_address(struct tcam_address a, struct tcam_address b) { return a.upper == b.upper && a.lower == b.lower; }

/* Whether the library tells this entry by its tag, whole. */
static bool is_told(const struct entry *entry, const struct tcam_stored *told) {
    const struct tcam_rule6 *rule = &entry->rule;
    struct tcam_address route = {1, 1};
    uint32_t four = 1;
    uint8_t length = 1;
    if (!entry->there || tcam_rule_number(told->tag) != rule->number) return false;
    if (rule->number == 0 && entry->six && !tcam_route6_of(told->tag, &route, &length)) return false;
    if (rule->number == 0 && !entry->six) {
        if (!tcam_route_of(told->tag, &four, &length)) return false;
        route = (struct tcam_address){(uint64_t)four << 32, 0};
    }
    if (rule->number == 0 && (!same_address(route, rule->destination) || length != rule->destination_length))
        return false;
    return same_address(told->source, rule->source) && same_address(told->destination, rule->destination) &&
           told->source_length == rule->source_length && told->destination_length == rule->destination_length &&
           told->protocol == rule->protocol && told->source_port_first == rule->source_port_first &&
           told->source_port_last == rule->source_port_last && told->result == rule->result &&
           told->destination_port_first == rule->destination_port_first &&
           told->destination_port_last == rule->destination_port_last;
}

/* Each rule of the set is told once, and no other, by falling tags. */
static void compare_rules(struct tcam_manager *manager, const struct set *set) {
    struct tcam_stored told, before = {.result = 0};
    uint32_t cursor = 0, count = 0;
    for (int i = 0; i < ENTRIES; i++) count += set->entries[i].there;
    while (tcam_rules(manager, &cursor, &told) == TCAM_OK) {
        int found = 0;
        for (int i = 0; i < ENTRIES; i++) found += is_told(&set->entries[i], &told);
        CHECK(found == 1);
        if (cursor > 1)
            CHECK(before.tag.high != told.tag.high ? before.tag.high > told.tag.high
                  : before.tag.low_upper != told.tag.low_upper ? before.tag.low_upper > told.tag.low_upper
                                                               : before.tag.low_lower > told.tag.low_lower);
        before = told;
    }
    CHECK(cursor == count);
}

static void carry_out(struct tcam_manager *manager, struct registers *registers, const struct set *old,
                      const struct set *new) {
    struct tcam_write write;
    compare(manager, registers, old, new);
    while (tcam_next(manager, &write) == TCAM_OK && write.kind != TCAM_NOTHING) {
        if (write.kind == TCAM_DRAIN)
            CHECK(tcam_drained(manager) == TCAM_OK); /* no look-up is under way between two calls */
        else if (registers_put(registers, &write))
            CHECK(tcam_made(manager) == TCAM_OK);
        compare(manager, registers, old, new);
    }
    compare(manager, registers, new, new);
    compare_rules(manager, new);
}

static void commits_at_random(enum tcam_mode mode, enum tcam_placement placement) {
    static struct registers registers;
    static struct set old, new;
    struct tcam_manager manager = TCAM_MANAGER_NONE;
    unsigned taken = 0, refused = 0;
    memset(&registers, 0, sizeof registers);
    memset(&old, 0, sizeof old);
    versions[0] = versions[1] = 0;
    CHECK(tcam_new(&manager, SLOTS, mode, placement) == TCAM_OK);
    for (int commit = 0; commit < 150; commit++) {
        struct tcam_numbers numbers;
        struct tcam_refusal refusal;
        new = old;
        change(&manager, &new);
        enum tcam_error error = tcam_prepare(&manager, &numbers, &refusal);
        if (error == TCAM_OK) {
            carry_out(&manager, &registers, &old, &new);
            old = new;
            taken++;
        } else {
            CHECK((error == TCAM_SLOTS || error == TCAM_BITS) && tcam_clear(&manager) == TCAM_OK);
            compare_rules(&manager, &old);
            refused++;
        }
    }
    CHECK(tcam_free(&manager) == TCAM_OK && versions[0] > 0 && versions[1] > 0);
    printf("both versions, mode %d placement %d: %u commits taken, %u refused, %u packets of IPv4 and %u of IPv6 answered\n",
           mode, placement, taken, refused, versions[0], versions[1]);
}

int main(void) {
    for (int mode = TCAM_COVER; mode <= TCAM_BY_BITS; mode++)
        for (int placement = TCAM_MIDDLE; placement <= TCAM_ENDS; placement++)
            commits_at_random((enum tcam_mode)mode, (enum tcam_placement)placement);
    return 0;
}
