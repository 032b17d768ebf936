/* Every wrong use of the library, and every refusal, with the code that answers it, what it tells, and what it leaves.
 * */
#include "tries.h"

#include <string.h>

/* What calls are given to write to, filled with a pattern. */
struct told {
    struct tcam_numbers numbers;
    struct tcam_refusal refusal;
    struct tcam_write write;
    struct tcam_answer answer;
    struct tcam_stored rule;
    uint64_t left;
    uint32_t cursor;
    uint32_t free;
    uint32_t longest;
};

/* Every function over a handle that has no manager, and over null: nothing is written. */
static void without_manager(struct tcam_manager *manager, enum tcam_error wanted) {
    struct tcam_rule rule = {.protocol = TCAM_ANY_PROTOCOL};
    struct tcam_rule6 rule6 = {.protocol = TCAM_ANY_PROTOCOL};
    struct tcam_key key = {0};
    struct tcam_key6 key6 = {.protocol = 6};
    struct tcam_address address = {0, 0};
    struct told told, untold;
    memset(&told, 0xa5, sizeof told);
    memset(&untold, 0xa5, sizeof untold);
    CHECK(tcam_free(manager) == wanted);
    CHECK(tcam_add_route(manager, 0, 0, 1) == wanted);
    CHECK(tcam_set_route(manager, 0, 0, 1) == wanted);
    CHECK(tcam_del_route(manager, 0, 0) == wanted);
    CHECK(tcam_add_rule(manager, &rule) == wanted);
    CHECK(tcam_add_route6(manager, address, 0, 1) == wanted);
    CHECK(tcam_set_route6(manager, address, 0, 1) == wanted);
    CHECK(tcam_del_route6(manager, address, 0) == wanted);
    CHECK(tcam_add_rule6(manager, &rule6) == wanted);
    CHECK(tcam_set_rule(manager, 1, 1) == wanted);
    CHECK(tcam_del_rule(manager, 1) == wanted);
    CHECK(tcam_clear(manager) == wanted);
    CHECK(tcam_prepare(manager, &told.numbers, &told.refusal) == wanted);
    CHECK(tcam_next(manager, &told.write) == wanted);
    CHECK(tcam_made(manager) == wanted);
    CHECK(tcam_drained(manager) == wanted);
    CHECK(tcam_abort(manager, &told.left) == wanted);
    CHECK(tcam_answer(manager, &key, &told.answer) == wanted);
    CHECK(tcam_answer6(manager, &key6, &told.answer) == wanted);
    CHECK(tcam_rules(manager, &told.cursor, &told.rule) == wanted);
    CHECK(tcam_free_slots(manager, &told.free) == wanted);
    CHECK(tcam_longest_chain(manager, &told.longest) == wanted);
    CHECK(memcmp(&told, &untold, sizeof told) == 0);
}

static void null_pointers(struct tcam_manager *manager) {
    struct tcam_numbers numbers;
    struct tcam_refusal refusal;
    struct tcam_key key = {0};
    struct tcam_answer answer;
    struct tcam_key6 key6 = {.protocol = 6};
    struct tcam_stored rule;
    uint32_t cursor = 0;
    CHECK(tcam_new(NULL, 8, TCAM_COVER, TCAM_MIDDLE) == TCAM_NULL);
    CHECK(tcam_new_split(NULL, 8, TCAM_COVER, TCAM_MIDDLE) == TCAM_NULL);
    CHECK(tcam_add_rule(manager, NULL) == TCAM_NULL);
    CHECK(tcam_prepare(manager, NULL, &refusal) == TCAM_NULL);
    CHECK(tcam_prepare(manager, &numbers, NULL) == TCAM_NULL);
    CHECK(tcam_next(manager, NULL) == TCAM_NULL);
    CHECK(tcam_abort(manager, NULL) == TCAM_NULL);
    CHECK(tcam_answer(manager, NULL, &answer) == TCAM_NULL);
    CHECK(tcam_answer(manager, &key, NULL) == TCAM_NULL);
    CHECK(tcam_add_rule6(manager, NULL) == TCAM_NULL);
    CHECK(tcam_answer6(manager, NULL, &answer) == TCAM_NULL);
    CHECK(tcam_answer6(manager, &key6, NULL) == TCAM_NULL);
    CHECK(tcam_rules(manager, NULL, &rule) == TCAM_NULL);
    CHECK(tcam_rules(manager, &cursor, NULL) == TCAM_NULL);
    CHECK(tcam_free_slots(manager, NULL) == TCAM_NULL);
    CHECK(tcam_longest_chain(manager, NULL) == TCAM_NULL);
}

static void wrong_numbers(struct tcam_manager *manager) {
    struct tcam_rule good = {.number = 1, .protocol = TCAM_ANY_PROTOCOL}, rule;
    CHECK(tcam_add_route(manager, 0x0a000000, 33, 1) == TCAM_PREFIX_LENGTH);
    CHECK(tcam_add_route(manager, 0x0a000001, 8, 1) == TCAM_HOST_BITS);
    CHECK(tcam_set_route(manager, 0x0a000000, 255, 1) == TCAM_PREFIX_LENGTH);
    CHECK(tcam_del_route(manager, 1, 0) == TCAM_HOST_BITS);
    rule = good, rule.source_length = 40;
    CHECK(tcam_add_rule(manager, &rule) == TCAM_PREFIX_LENGTH);
    rule = good, rule.destination_length = 33;
    CHECK(tcam_add_rule(manager, &rule) == TCAM_PREFIX_LENGTH);
    rule = good, rule.source = 1;
    CHECK(tcam_add_rule(manager, &rule) == TCAM_HOST_BITS);
    rule = good, rule.destination = 1;
    CHECK(tcam_add_rule(manager, &rule) == TCAM_HOST_BITS);
    rule = good, rule.source_port_first = 9;
    CHECK(tcam_add_rule(manager, &rule) == TCAM_PORTS);
    rule = good, rule.destination_port_first = 9;
    CHECK(tcam_add_rule(manager, &rule) == TCAM_PORTS);
    rule = good, rule.protocol = 257;
    CHECK(tcam_add_rule(manager, &rule) == TCAM_PROTOCOL);
    CHECK(tcam_set_route(manager, 1, 31, 1) == TCAM_HOST_BITS && tcam_del_route(manager, 0, 33) == TCAM_PREFIX_LENGTH);
    CHECK(tcam_set_rule(manager, 0, 1) == TCAM_NUMBER && tcam_del_rule(manager, 0) == TCAM_NUMBER);
    /* of several the first one is told */
    rule = (struct tcam_rule){.source = 1, .destination_length = 40, .source_port_first = 9, .protocol = 300};
    CHECK(tcam_add_rule(manager, &rule) == TCAM_NUMBER);
    rule.number = UINT32_MAX;
    CHECK(tcam_add_rule(manager, &rule) == TCAM_HOST_BITS);
    rule.source = 0;
    CHECK(tcam_add_rule(manager, &rule) == TCAM_PREFIX_LENGTH);
    rule.destination_length = 0;
    CHECK(tcam_add_rule(manager, &rule) == TCAM_PORTS);
    rule.source_port_first = 0;
    CHECK(tcam_add_rule(manager, &rule) == TCAM_PROTOCOL);
}

static void wrong_numbers6(struct tcam_manager *manager) {
    static const struct tcam_address none = {0, 0}, last = {0, 1}, middle = {1, 0}, first = {(uint64_t)1 << 63, 0};
    struct tcam_rule6 good = {.number = 1, .protocol = TCAM_ANY_PROTOCOL}, rule;
    CHECK(tcam_add_route6(manager, none, 129, 1) == TCAM_PREFIX_LENGTH);
    CHECK(tcam_add_route6(manager, last, 127, 1) == TCAM_HOST_BITS);
    CHECK(tcam_add_route6(manager, last, 0, 1) == TCAM_HOST_BITS && tcam_add_route6(manager, first, 0, 1) == TCAM_HOST_BITS);
    CHECK(tcam_set_route6(manager, none, 255, 1) == TCAM_PREFIX_LENGTH);
    CHECK(tcam_set_route6(manager, middle, 63, 1) == TCAM_HOST_BITS);
    CHECK(tcam_del_route6(manager, none, 129) == TCAM_PREFIX_LENGTH && tcam_del_route6(manager, last, 64) == TCAM_HOST_BITS);
    rule = good, rule.source_length = 129;
    CHECK(tcam_add_rule6(manager, &rule) == TCAM_PREFIX_LENGTH);
    rule = good, rule.destination_length = 200;
    CHECK(tcam_add_rule6(manager, &rule) == TCAM_PREFIX_LENGTH);
    rule = good, rule.source = first;
    CHECK(tcam_add_rule6(manager, &rule) == TCAM_HOST_BITS);
    rule = good, rule.destination = last, rule.destination_length = 64;
    CHECK(tcam_add_rule6(manager, &rule) == TCAM_HOST_BITS);
    rule = good, rule.source_port_first = 9;
    CHECK(tcam_add_rule6(manager, &rule) == TCAM_PORTS);
    rule = good, rule.protocol = 257;
    CHECK(tcam_add_rule6(manager, &rule) == TCAM_PROTOCOL);
    /* of several the first one is told */
    rule = (struct tcam_rule6){.source = last, .destination_length = 129, .destination_port_first = 9, .protocol = 300};
    CHECK(tcam_add_rule6(manager, &rule) == TCAM_NUMBER);
    rule.number = 1;
    CHECK(tcam_add_rule6(manager, &rule) == TCAM_HOST_BITS);
    rule.source = none;
    CHECK(tcam_add_rule6(manager, &rule) == TCAM_PREFIX_LENGTH);
    rule.destination_length = 128;
    CHECK(tcam_add_rule6(manager, &rule) == TCAM_PORTS);
    rule.destination_port_first = 0;
    CHECK(tcam_add_rule6(manager, &rule) == TCAM_PROTOCOL);
}

/* A refusal tells what its code is for, and 0 else. */
static bool tells(const struct tcam_refusal *refusal, uint64_t left, struct tcam_tag tag, uint32_t field, uint32_t need,
                  uint32_t free) {
    return refusal->left == left && same_tag(refusal->tag, tag) && refusal->field == field && refusal->need == need &&
           refusal->free == free;
}

/* A batch that is refused: its code, and numbers that are as they were. */
static enum tcam_error refused(struct tcam_manager *manager, struct tcam_refusal *refusal) {
    struct tcam_numbers numbers = {1, 2, 3, 4};
    memset(refusal, 0xff, sizeof *refusal);
    enum tcam_error error = tcam_prepare(manager, &numbers, refusal);
    CHECK(numbers.writes == 1 && numbers.words == 2 && numbers.most == 3 && numbers.span == 4);
    return error;
}

static const struct tcam_tag no_tag;

static void out_of_order(struct tcam_manager *manager) {
    struct tcam_numbers numbers = {0};
    struct tcam_refusal refusal = {0};
    struct tcam_write write;
    CHECK(tcam_made(manager) == TCAM_NOTHING_DUE && tcam_drained(manager) == TCAM_NOTHING_DUE);
    CHECK(tcam_prepare(manager, &numbers, &refusal) == TCAM_OK && numbers.writes == 0);
    CHECK(tcam_next(manager, &write) == TCAM_OK && write.kind == TCAM_NOTHING);
    CHECK(tcam_made(manager) == TCAM_NOTHING_DUE);
    CHECK(tcam_add_route(manager, 0x0a000000, 8, 1) == TCAM_OK);
    CHECK(tcam_prepare(manager, &numbers, &refusal) == TCAM_OK && numbers.writes == 1);
    CHECK(refused(manager, &refusal) == TCAM_BUSY && tells(&refusal, 1, no_tag, 0, 0, 0));
    CHECK(tcam_drained(manager) == TCAM_WRITE_DUE && tcam_next(manager, &write) == TCAM_OK && write.kind == TCAM_PUT);
    CHECK(tcam_made(manager) == TCAM_OK && tcam_made(manager) == TCAM_NOTHING_DUE);
    CHECK(tcam_drained(manager) == TCAM_NOTHING_DUE);
}

/* A commit is turned round before its first write, and another in its midst, with one route in the memory. */
static void turned_round(struct tcam_manager *manager) {
    struct tcam_numbers numbers;
    struct tcam_refusal refusal;
    struct tcam_write write;
    uint64_t left = 99;
    CHECK(tcam_abort(manager, &left) == TCAM_NOTHING_DUE && left == 99);
    for (uint32_t made = 0; made < 2; made++) {
        CHECK(tcam_add_route(manager, 0, 1, 1) == TCAM_OK && tcam_add_route(manager, 0, 2, 2) == TCAM_OK);
        CHECK(tcam_prepare(manager, &numbers, &refusal) == TCAM_OK && numbers.writes == 2);
        if (made > 0) CHECK(tcam_made(manager) == TCAM_OK);
        CHECK(tcam_add_route(manager, 0, 3, 3) == TCAM_OK);
        CHECK(tcam_abort(manager, &left) == TCAM_OK && left == made);
        if (made > 0) {
            CHECK(tcam_abort(manager, &left) == TCAM_BACK && left == 1);
            CHECK(refused(manager, &refusal) == TCAM_BUSY && tells(&refusal, 1, no_tag, 0, 0, 0));
            CHECK(tcam_drained(manager) == TCAM_WRITE_DUE && tcam_next(manager, &write) == TCAM_OK);
            CHECK(write.kind == TCAM_ERASE && tcam_made(manager) == TCAM_OK);
        }
        CHECK(tcam_made(manager) == TCAM_NOTHING_DUE && tcam_abort(manager, &left) == TCAM_NOTHING_DUE && left == made);
        CHECK(tcam_next(manager, &write) == TCAM_OK && write.kind == TCAM_NOTHING);
        CHECK(tcam_del_route(manager, 0, 1) == TCAM_OK && refused(manager, &refusal) == TCAM_ABSENT);
        CHECK(tcam_clear(manager) == TCAM_OK);
    }
}

/* With one route, 10.0.0.0/8, in eight slots. */
static void refusals(struct tcam_manager *manager) {
    struct tcam_refusal refusal;
    struct tcam_tag route = {8, 0, 0x0a000000}, rule = {0, 0, ((uint64_t)1 << 32) - 7};
    CHECK(tcam_add_route(manager, 0x0a000000, 8, 1) == TCAM_OK);
    CHECK(refused(manager, &refusal) == TCAM_TAKEN && tells(&refusal, 0, route, 0, 0, 0));
    CHECK(refused(manager, &refusal) == TCAM_TAKEN && tcam_clear(manager) == TCAM_OK);
    CHECK(tcam_set_rule(manager, 7, 1) == TCAM_OK);
    CHECK(refused(manager, &refusal) == TCAM_ABSENT && tells(&refusal, 0, rule, 0, 0, 0));
    CHECK(tcam_rule_number(rule) == 7 && tcam_rule_number(route) == 0);
    CHECK(tcam_clear(manager) == TCAM_OK && tcam_del_rule(manager, 7) == TCAM_OK);
    CHECK(refused(manager, &refusal) == TCAM_ABSENT && tells(&refusal, 0, rule, 0, 0, 0));
    CHECK(tcam_clear(manager) == TCAM_OK);
    CHECK(tcam_set_route(manager, 0x0a000000, 8, 2) == TCAM_OK && tcam_del_route(manager, 0x0a000000, 8) == TCAM_OK);
    CHECK(refused(manager, &refusal) == TCAM_TWICE && tells(&refusal, 0, route, 0, 0, 0));
    CHECK(tcam_clear(manager) == TCAM_OK);
    for (uint32_t i = 0; i < 4096; i++) CHECK(tcam_add_route(manager, i << 8, 24, i) == TCAM_OK);
    CHECK(tcam_add_route(manager, 0x0b000000, 24, 1) == TCAM_BATCH_FULL);
    CHECK(refused(manager, &refusal) == TCAM_SLOTS && tells(&refusal, 0, no_tag, 0, 4096, 7));
    CHECK(tcam_clear(manager) == TCAM_OK);
}

/* Tags that are a route's, a rule's, or nobody's. */
static void tags(void) {
    static const struct { struct tcam_tag tag; uint32_t number; bool is_route; } tags[] = {
        {{0, 0, 0}, 0, true}, {{0, 0, 1}, UINT32_MAX, false}, {{0, 0, UINT32_MAX}, 1, false},
        {{0, 0, (uint64_t)1 << 32}, 0, false}, {{0, 1, 1}, 0, false}, {{8, 0, 0x0a000000}, 0, true},
        {{8, 0, 0x0a010000}, 0, false}, {{32, 0, UINT32_MAX}, 0, true}, {{33, 0, 0}, 0, false},
        {{8, 1, 0x0a000000}, 0, false}, {{8, 0, (uint64_t)1 << 32}, 0, false}, {{255, 0, 0}, 0, false}};
    for (size_t i = 0; i < sizeof tags / sizeof *tags; i++) {
        uint32_t address = 99;
        uint8_t length = 99;
        CHECK(tcam_rule_number(tags[i].tag) == tags[i].number);
        CHECK(tcam_route_of(tags[i].tag, &address, &length) == tags[i].is_route);
        CHECK(tcam_route_of(tags[i].tag, NULL, NULL) == tags[i].is_route);
        CHECK(address == (tags[i].is_route ? tags[i].tag.low_lower : 99));
        CHECK(length == (tags[i].is_route ? tags[i].tag.high : 99));
    }
}

/* The same of routes of IPv6: a bit past the length makes a tag nobody's. */
static void tags6(void) {
    struct tcam_address address = {99, 99};
    uint8_t length = 99;
    for (unsigned bit = 0; bit < 128; bit++) {
        struct tcam_tag tag = {0, bit < 64 ? (uint64_t)1 << (63 - bit) : 0, bit < 64 ? 0 : (uint64_t)1 << (127 - bit)};
        for (unsigned high = 0; high < 256; high++) {
            tag.high = (uint8_t)high;
            bool is_route = high > bit && high <= 128;
            CHECK(tcam_route6_of(tag, NULL, NULL) == is_route && tcam_route6_of(tag, &address, &length) == is_route);
            if (is_route) CHECK(address.upper == tag.low_upper && address.lower == tag.low_lower && length == high);
            CHECK(!is_route || (tcam_rule_number(tag) == 0 && !tcam_route_of(tag, NULL, NULL)));
        }
    }
    CHECK(tcam_route6_of((struct tcam_tag){0, 0, 0}, &address, &length) && length == 0 && address.upper == 0);
}

/* The rules are told in falling priority, and while a commit is under way those before it. */
static void rules_told(struct tcam_manager *manager) {
    struct tcam_rule rule = {.number = 3, .protocol = 6, .source_port_last = 65535, .destination_port_last = 65535};
    struct tcam_numbers numbers;
    struct tcam_refusal refusal;
    struct tcam_stored told;
    uint32_t cursor = 0, free, longest, address;
    uint8_t length;
    CHECK(tcam_new(manager, 8, TCAM_COVER, TCAM_MIDDLE) == TCAM_OK);
    CHECK(tcam_add_route(manager, 0, 0, 1) == TCAM_OK && tcam_add_rule(manager, &rule) == TCAM_OK);
    CHECK(tcam_add_route(manager, 0x0a000000, 8, 2) == TCAM_OK);
    CHECK(tcam_rules(manager, &cursor, &told) == TCAM_NO_RULE && cursor == 0);
    CHECK(tcam_prepare(manager, &numbers, &refusal) == TCAM_OK && tcam_made(manager) == TCAM_OK);
    CHECK(tcam_free_slots(manager, &free) == TCAM_OK && free == 8);
    CHECK(tcam_longest_chain(manager, &longest) == TCAM_OK && longest == 0);
    CHECK(tcam_rules(manager, &cursor, &told) == TCAM_NO_RULE && cursor == 0);
    CHECK(tcam_made(manager) == TCAM_OK && tcam_made(manager) == TCAM_OK && tcam_made(manager) == TCAM_NOTHING_DUE);
    CHECK(tcam_free_slots(manager, &free) == TCAM_OK && free == 5);
    CHECK(tcam_longest_chain(manager, &longest) == TCAM_OK && longest == 3);
    CHECK(tcam_rules(manager, &cursor, &told) == TCAM_OK && cursor == 1 && told.result == 2);
    CHECK(tcam_route_of(told.tag, &address, &length) && address == 0x0a000000 && length == 8);
    CHECK(told.destination.upper == (uint64_t)address << 32 && told.destination_length == 8 && told.source_length == 0);
    CHECK(told.protocol == TCAM_ANY_PROTOCOL && told.source_port_first == 0 && told.destination_port_last == 65535);
    CHECK(tcam_rules(manager, &cursor, &told) == TCAM_OK && tcam_rule_number(told.tag) == 3 && told.protocol == 6);
    CHECK(tcam_rules(manager, &cursor, &told) == TCAM_OK && tcam_route_of(told.tag, &address, &length) && length == 0);
    CHECK(tcam_rules(manager, &cursor, &told) == TCAM_NO_RULE && cursor == 3 && told.result == 1);
    cursor = UINT32_MAX;
    CHECK(tcam_rules(manager, &cursor, &told) == TCAM_NO_RULE && cursor == UINT32_MAX && tcam_free(manager) == TCAM_OK);
}

/* More ranges of a field than it has bits, of which none is one block. */
static void too_many_ranges(struct tcam_manager *manager) {
    struct tcam_refusal refusal;
    CHECK(tcam_new(manager, 64, TCAM_BY_BITS, TCAM_RANK) == TCAM_OK);
    for (uint16_t i = 0; i < 17; i++) {
        struct tcam_rule rule = {.number = 1u + i, .protocol = 6, .source_port_last = 65535, .destination_port_first = 1,
                                 .destination_port_last = (uint16_t)(2 + i)};
        CHECK(tcam_add_rule(manager, &rule) == TCAM_OK);
    }
    CHECK(refused(manager, &refusal) == TCAM_BITS && tells(&refusal, 0, no_tag, TCAM_DESTINATION, 17, 16));
    CHECK(tcam_free(manager) == TCAM_OK);
}

/* While a commit is under way the next batch is collected and no other is taken; and the handle may be moved, and
 * freed. */
static void under_way(struct tcam_manager *manager) {
    struct tcam_manager moved, none = TCAM_MANAGER_NONE;
    struct tcam_numbers numbers;
    struct tcam_refusal refusal;
    CHECK(tcam_new(manager, 8, TCAM_COVER, TCAM_MIDDLE) == TCAM_OK && tcam_add_route(manager, 0, 0, 1) == TCAM_OK);
    CHECK(tcam_prepare(manager, &numbers, &refusal) == TCAM_OK && tcam_add_route(manager, 0, 1, 2) == TCAM_OK);
    CHECK(refused(manager, &refusal) == TCAM_BUSY && tcam_clear(manager) == TCAM_OK);
    CHECK(tcam_add_route(manager, 0, 2, 3) == TCAM_OK && tcam_made(manager) == TCAM_OK);
    CHECK(tcam_prepare(manager, &numbers, &refusal) == TCAM_OK && numbers.writes == 1);
    moved = *manager;
    *manager = none;
    without_manager(manager, TCAM_NO_MANAGER);
    CHECK(refused(&moved, &refusal) == TCAM_BUSY && tcam_free(&moved) == TCAM_OK);
    CHECK(tcam_free(&moved) == TCAM_NO_MANAGER);
}

/* With results beside the slots a route is put in two parts, and a commit that has begun stays. */
static void by_parts(struct tcam_manager *manager) {
    struct tcam_numbers numbers;
    struct tcam_refusal refusal;
    struct tcam_write write;
    uint64_t left = 99;
    CHECK(tcam_new_split(manager, 0, TCAM_COVER, TCAM_MIDDLE) == TCAM_SLOTS_RANGE);
    CHECK(tcam_new_split(manager, 1048577, TCAM_COVER, TCAM_MIDDLE) == TCAM_SLOTS_RANGE);
    CHECK(tcam_new_split(manager, 8, (enum tcam_mode)2, TCAM_MIDDLE) == TCAM_NO_MODE);
    CHECK(tcam_new_split(manager, 8, TCAM_COVER, (enum tcam_placement)3) == TCAM_NO_PLACEMENT);
    without_manager(manager, TCAM_NO_MANAGER);
    CHECK(tcam_new_split(manager, 8, TCAM_COVER, TCAM_MIDDLE) == TCAM_OK);
    CHECK(tcam_new(manager, 8, TCAM_COVER, TCAM_MIDDLE) == TCAM_MADE_ALREADY);
    CHECK(tcam_new_split(manager, 8, TCAM_COVER, TCAM_MIDDLE) == TCAM_MADE_ALREADY);
    null_pointers(manager);
    wrong_numbers(manager);
    wrong_numbers6(manager);
    CHECK(tcam_made(manager) == TCAM_NOTHING_DUE && tcam_drained(manager) == TCAM_NOTHING_DUE);
    CHECK(tcam_abort(manager, &left) == TCAM_NOTHING_DUE && left == 99);
    CHECK(tcam_prepare(manager, &numbers, &refusal) == TCAM_OK && numbers.writes == 0);
    for (int dropped = 0; dropped < 2; dropped++) {
        CHECK(tcam_add_route(manager, 0x0a000000, 8, 1) == TCAM_OK);
        CHECK(tcam_prepare(manager, &numbers, &refusal) == TCAM_OK && numbers.writes == 2);
        CHECK(refused(manager, &refusal) == TCAM_BUSY && tells(&refusal, 2, no_tag, 0, 0, 0));
        if (dropped == 0) CHECK(tcam_abort(manager, &left) == TCAM_OK && left == 0);
    }
    CHECK(tcam_drained(manager) == TCAM_WRITE_DUE && tcam_next(manager, &write) == TCAM_OK && write.kind == TCAM_RESULT);
    CHECK(write.result == 1 && tcam_made(manager) == TCAM_OK && tcam_next(manager, &write) == TCAM_OK);
    left = 99;
    CHECK(write.kind == TCAM_PUT && write.result == 0 && tcam_abort(manager, &left) == TCAM_BEGUN && left == 99);
    CHECK(refused(manager, &refusal) == TCAM_BUSY && tells(&refusal, 1, no_tag, 0, 0, 0));
    CHECK(tcam_made(manager) == TCAM_OK && tcam_made(manager) == TCAM_NOTHING_DUE);
    refusals(manager);
    CHECK(tcam_free(manager) == TCAM_OK);
}

/* Each code has a text of its own. */
static void texts(void) {
    const char *none = tcam_error_text((enum tcam_error)(TCAM_NO_RULE + 1));
    for (int error = TCAM_OK; error <= TCAM_NO_RULE; error++) {
        const char *text = tcam_error_text((enum tcam_error)error);
        CHECK(strlen(text) > 3 && strcmp(text, none) != 0);
        for (int other = TCAM_OK; other < error; other++)
            CHECK(strcmp(text, tcam_error_text((enum tcam_error)other)) != 0);
    }
}

void wrong_uses(void) {
    struct tcam_manager manager = TCAM_MANAGER_NONE;
    without_manager(NULL, TCAM_NULL);
    without_manager(&manager, TCAM_NO_MANAGER);
    CHECK(tcam_new(&manager, 0, TCAM_COVER, TCAM_MIDDLE) == TCAM_SLOTS_RANGE);
    CHECK(tcam_new(&manager, 1048577, TCAM_COVER, TCAM_MIDDLE) == TCAM_SLOTS_RANGE);
    CHECK(tcam_new(&manager, 8, (enum tcam_mode)2, TCAM_MIDDLE) == TCAM_NO_MODE);
    CHECK(tcam_new(&manager, 8, TCAM_COVER, (enum tcam_placement)3) == TCAM_NO_PLACEMENT);
    without_manager(&manager, TCAM_NO_MANAGER);
    CHECK(tcam_new(&manager, 8, TCAM_COVER, TCAM_MIDDLE) == TCAM_OK);
    CHECK(tcam_new(&manager, 8, TCAM_COVER, TCAM_MIDDLE) == TCAM_MADE_ALREADY);
    null_pointers(&manager);
    wrong_numbers(&manager);
    wrong_numbers6(&manager);
    out_of_order(&manager);
    turned_round(&manager);
    refusals(&manager);
    CHECK(tcam_free(&manager) == TCAM_OK);
    without_manager(&manager, TCAM_NO_MANAGER);
    tags();
    tags6();
    rules_told(&manager);
    too_many_ranges(&manager);
    under_way(&manager);
    by_parts(&manager);
    texts();
}
