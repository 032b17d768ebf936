/* A live feed and whole lists, against a model of the driver's own. The feed tells in bursts what a rule is now, or that it
 * is gone, often what stands so already and several times for one rule; between bursts the list is replaced as a whole.
 * What is there the driver never asks for a change. After each write the registers and the library answer as the old list
 * or the new one does, by a plain loop; nothing is written of a rule that stands so already, and a new result takes a write
 * for each entry of its rule. Then commits of a feed are gone on with behind a restart after each count of writes, routes of
 * both versions are put and dropped, each code comes, and each allocation fails in turn. */
#include "lists.h"
#include "registers.h"
#include "tries.h"

#include <string.h>

/* The allocations of the library, which the linker sends here. */
void *__real_malloc(size_t size);
void *__real_realloc(void *block, size_t size);
static unsigned long allocations, failing;

void *__wrap_malloc(size_t size) {
    return ++allocations == failing ? NULL : __real_malloc(size);
}

void *__wrap_realloc(void *block, size_t size) {
    return ++allocations == failing ? NULL : __real_realloc(block, size);
}

static struct draws draws = {51};
static struct tcam_numbers numbers;
static struct tcam_refusal refusal;
static unsigned untouched, results_alone;

static bool same_conditions(const struct tcam_rule *a, const struct tcam_rule *b) {
    return a->source == b->source && a->source_length == b->source_length && a->destination == b->destination &&
           a->destination_length == b->destination_length && a->protocol == b->protocol &&
           a->source_port_first == b->source_port_first && a->source_port_last == b->source_port_last &&
           a->destination_port_first == b->destination_port_first &&
           a->destination_port_last == b->destination_port_last;
}

/* How many entries of a rule the registers hold. */
static unsigned entries_of(const struct registers *registers, uint32_t number) {
    unsigned count = 0;
    for (int at = 0; at < SLOTS; at++)
        count += registers->slots[at].used && tcam_rule_number(registers->slots[at].tag) == number;
    return count;
}

/* How many writes the changes from one list to another take, or -1 where one has other conditions, since entries move then
 * as the manager likes. */
static int64_t writes_needed(const struct registers *registers, const struct list *old, const struct list *new) {
    int64_t writes = 0;
    for (uint32_t at = 0; at < NUMBERS; at++) {
        const struct tcam_rule *was = &old->rules[at], *is = &new->rules[at];
        if (new->there[at] && !(old->there[at] && same_conditions(was, is))) return -1;
        if (old->there[at] && (!new->there[at] || was->result != is->result))
            writes += entries_of(registers, at + 1);
    }
    return writes;
}

static void compare(struct tcam_manager *manager, const struct registers *registers, const struct list *old,
                    const struct list *new) {
    for (int i = 0; i < 24; i++) {
        struct tcam_key key = key_at_random(&draws);
        struct tcam_answer answer;
        int64_t was = list_answer(old, &key), is = list_answer(new, &key), got = registers_answer(registers, &key);
        CHECK(got == was || got == is);
        CHECK(tcam_answer(manager, &key, &answer) == TCAM_OK);
        got = answer.found ? (int64_t)answer.result : -1;
        CHECK(got == was || got == is);
    }
}

/* Makes what is due, a write as often as it fails, and at most so many. Answers how many it made. */
static uint64_t make(struct tcam_manager *manager, struct registers *registers, const struct list *old,
                     const struct list *new, uint64_t most) {
    struct tcam_write write;
    uint64_t made = 0;
    compare(manager, registers, old, new);
    while (made < most && tcam_next(manager, &write) == TCAM_OK && write.kind != TCAM_NOTHING) {
        if (write.kind == TCAM_DRAIN) {
            CHECK(tcam_drained(manager) == TCAM_OK); /* no look-up is under way between two calls */
            continue;
        }
        if (!registers_put(registers, &write)) continue;
        CHECK(tcam_made(manager) == TCAM_OK);
        made++;
        compare(manager, registers, old, new);
    }
    return made;
}

/* What the feed tells next: a rule that stands as it does, one with another result, one that is another, or none. */
static void event(struct tcam_manager *manager, struct list *list) {
    uint32_t at = below(&draws, NUMBERS), what = below(&draws, 5);
    struct tcam_rule *rule = &list->rules[at];
    if (what == 0) {
        list->there[at] = false;
        CHECK(tcam_drop_rule(manager, at + 1) == TCAM_OK);
        return;
    }
    if (!list->there[at] || what == 1) *rule = rule_at_random(&draws, at + 1, 4);
    if (what == 2) rule->result = below(&draws, 4);
    list->there[at] = true;
    CHECK(tcam_put_rule(manager, rule) == TCAM_OK);
}

/* A burst of the feed, or a whole new list, of which some rules stand so already; its rules are added or put. Answers
 * whether it is a whole list. */
static bool change(struct tcam_manager *manager, struct list *list, bool whole) {
    if (!whole) {
        for (uint32_t events = 1 + below(&draws, 12); events > 0; events--) event(manager, list);
        return false;
    }
    bool strict = below(&draws, 2);
    for (uint32_t at = NUMBERS; at-- > 0;) {
        struct tcam_rule *rule = &list->rules[at];
        if (below(&draws, 4) == 0) list->there[at] = !list->there[at], *rule = rule_at_random(&draws, at + 1, 4);
        if (below(&draws, 6) == 0) rule->result = below(&draws, 4);
        if (list->there[at]) CHECK((strict ? tcam_add_rule : tcam_put_rule)(manager, rule) == TCAM_OK);
    }
    return true;
}

static void feed(enum tcam_mode mode, enum tcam_placement placement) {
    static struct registers registers;
    static struct list old, new;
    struct tcam_manager manager = TCAM_MANAGER_NONE;
    unsigned taken[2] = {0, 0}, refused = 0;
    memset(&registers, 0, sizeof registers);
    memset(&old, 0, sizeof old);
    untouched = results_alone = 0;
    CHECK(tcam_new(&manager, SLOTS, mode, placement) == TCAM_OK);
    for (int commit = 0; commit < 200; commit++) {
        new = old;
        bool whole = change(&manager, &new, commit % 4 == 3);
        int64_t needed = writes_needed(&registers, &old, &new);
        enum tcam_error error = (whole ? tcam_prepare_all : tcam_prepare)(&manager, &numbers, &refusal);
        if (error != TCAM_OK) {
            CHECK(needed < 0 && (error == TCAM_SLOTS || error == TCAM_BITS) && refusal.need > refusal.free);
            CHECK(list_is_told(&old, &manager) && tcam_clear(&manager) == TCAM_OK);
            refused++;
            continue;
        }
        CHECK(needed < 0 || numbers.writes == (uint64_t)needed);
        untouched += needed == 0, results_alone += needed > 0;
        CHECK(make(&manager, &registers, &old, &new, UINT64_MAX) == numbers.writes);
        compare(&manager, &registers, &new, &new);
        CHECK(list_is_told(&new, &manager));
        old = new;
        taken[whole]++;
    }
    CHECK(tcam_free(&manager) == TCAM_OK && taken[0] > 0 && taken[1] > 0 && untouched > 0 && results_alone > 0);
    printf("feed, mode %d placement %d: %u bursts and %u whole lists taken, %u refused, %u without a write\n", mode,
           placement, taken[0], taken[1], refused, untouched);
}

/* What a feed or a whole list changed, as requests: each rule of the new list is put, and each other number dropped. */
static void ask_again(struct tcam_manager *manager, const struct list *new) {
    for (uint32_t at = 0; at < NUMBERS; at++)
        CHECK((new->there[at] ? tcam_put_rule(manager, &new->rules[at]) : tcam_drop_rule(manager, at + 1)) == TCAM_OK);
}

/* A manager whose rules are these, and its registers. */
static void load(struct tcam_manager *manager, struct registers *registers, const struct list *list) {
    static const struct list none;
    memset(registers, 0, sizeof *registers);
    CHECK(tcam_new(manager, SLOTS, TCAM_COVER, TCAM_RANK) == TCAM_OK);
    for (uint32_t at = 0; at < NUMBERS; at++)
        if (list->there[at]) CHECK(tcam_put_rule(manager, &list->rules[at]) == TCAM_OK);
    CHECK(tcam_prepare(manager, &numbers, &refusal) == TCAM_OK);
    make(manager, registers, &none, list, UINT64_MAX);
}

/* Another manager goes on with the commit of a batch from what the registers hold: requests come to the same strict changes
 * over the rules that were saved. */
static void go_on(struct registers *registers, const struct list *old, const struct list *new,
                  const struct tcam_stored *saved, uint32_t rules) {
    struct tcam_manager manager = TCAM_MANAGER_NONE;
    struct tcam_restart_fault fault;
    uint64_t left = 0;
    CHECK(tcam_new(&manager, SLOTS, TCAM_COVER, TCAM_RANK) == TCAM_OK && tcam_restart_begin(&manager) == TCAM_OK);
    for (uint32_t i = 0; i < rules; i++) CHECK(tcam_restart_rule(&manager, &saved[i]) == TCAM_OK);
    for (uint32_t at = 0; at < SLOTS; at++) {
        const struct slot *slot = &registers->slots[at];
        struct tcam_write held = {.kind = TCAM_PUT, .slot = at, .tag = slot->tag, .result = slot->result};
        memcpy(held.value, slot->value, sizeof held.value);
        memcpy(held.mask, slot->mask, sizeof held.mask);
        if (slot->used) CHECK(tcam_restart_slot(&manager, &held) == TCAM_OK);
    }
    ask_again(&manager, new);
    /* a strict change of a rule that is put is refused, and nothing changes */
    CHECK(tcam_del_rule(&manager, 1) == TCAM_OK && tcam_restart(&manager, &left, &refusal, &fault) == TCAM_TWICE);
    CHECK(tcam_rule_number(refusal.tag) == 1 && tcam_clear(&manager) == TCAM_OK);
    ask_again(&manager, new);
    CHECK(tcam_restart(&manager, &left, &refusal, &fault) == TCAM_OK);
    CHECK(make(&manager, registers, old, new, UINT64_MAX) == left);
    compare(&manager, registers, new, new);
    CHECK(list_is_told(new, &manager) && tcam_free(&manager) == TCAM_OK);
}

/* Commits that are stopped behind each count of their writes. */
static void restarts(bool whole) {
    static struct registers registers;
    static struct list old, new;
    struct tcam_stored saved[NUMBERS + 1];
    unsigned restarted = 0;
    memset(&old, 0, sizeof old);
    for (int commit = 0; commit < 24; commit++) {
        uint32_t seed = draws.seed;
        uint64_t writes = 0;
        for (uint64_t stop = 0; stop <= writes; stop++) {
            struct tcam_manager manager = TCAM_MANAGER_NONE;
            uint32_t rules = 0;
            load(&manager, &registers, &old);
            while (tcam_rules(&manager, &rules, &saved[rules]) == TCAM_OK) {}
            draws.seed = seed;
            new = old;
            change(&manager, &new, whole);
            if ((whole ? tcam_prepare_all : tcam_prepare)(&manager, &numbers, &refusal) == TCAM_OK) {
                writes = numbers.writes;
                make(&manager, &registers, &old, &new, stop);
                go_on(&registers, &old, &new, saved, rules);
                restarted++;
            } else {
                new = old;
            }
            CHECK(tcam_free(&manager) == TCAM_OK);
        }
        old = new;
    }
    CHECK(restarted > 0);
    printf("restarts behind %s: %u\n", whole ? "whole lists" : "a feed", restarted);
}

/* Routes of both versions, of which a route daemon tells what they are now. */
#define ROUTES 12
static struct tcam_address six(uint32_t at) { return (struct tcam_address){0x20010db800000000u | at << 8, 0}; }

static void tell_route(struct tcam_manager *manager, uint32_t at, int64_t is) {
    uint32_t four = 0x0a000000u | at << 16;
    if (is < 0) {
        CHECK(tcam_drop_route(manager, four, 16) == TCAM_OK && tcam_drop_route6(manager, six(at), 56) == TCAM_OK);
    } else {
        CHECK(tcam_put_route(manager, four, 16, (uint32_t)is) == TCAM_OK);
        CHECK(tcam_put_route6(manager, six(at), 56, (uint32_t)is) == TCAM_OK);
    }
}

static void routes(void) {
    static struct registers registers;
    static const struct list none;
    struct tcam_manager manager = TCAM_MANAGER_NONE;
    int64_t results[ROUTES];
    memset(&registers, 0, sizeof registers);
    for (uint32_t at = 0; at < ROUTES; at++) results[at] = -1;
    CHECK(tcam_new(&manager, SLOTS, TCAM_COVER, TCAM_RANK) == TCAM_OK);
    for (int burst = 0; burst < 100; burst++) {
        struct tcam_write write;
        int64_t was[ROUTES];
        unsigned changed = 0;
        memcpy(was, results, sizeof was);
        for (uint32_t events = below(&draws, 9); events > 0; events--) {
            uint32_t at = below(&draws, ROUTES);
            results[at] = (int64_t)below(&draws, 4) - 1;
            tell_route(&manager, at, results[at]);
        }
        for (int at = 0; at < ROUTES; at++) changed += was[at] != results[at];
        CHECK(tcam_prepare(&manager, &numbers, &refusal) == TCAM_OK && numbers.writes >= 2 * changed);
        CHECK((numbers.writes == 0) == (changed == 0));
        while (tcam_next(&manager, &write) == TCAM_OK && write.kind != TCAM_NOTHING)
            if (registers_put(&registers, &write)) CHECK(tcam_made(&manager) == TCAM_OK);
        for (uint32_t at = 0; at < ROUTES; at++) {
            struct tcam_key key = {.destination = 0x0a000000u | at << 16 | 7};
            struct tcam_key6 key6 = {.destination = six(at)};
            struct tcam_answer answer;
            key6.destination.lower = 7;
            CHECK(registers_answer(&registers, &key) == results[at]);
            CHECK(tcam_answer6(&manager, &key6, &answer) == TCAM_OK);
            CHECK((answer.found ? (int64_t)answer.result : -1) == results[at]);
        }
    }
    /* a whole list of no changes takes all of them out */
    CHECK(tcam_prepare_all(&manager, &numbers, &refusal) == TCAM_OK);
    while (tcam_made(&manager) == TCAM_OK) {}
    CHECK(list_is_told(&none, &manager) && tcam_free(&manager) == TCAM_OK);
}

/* The codes of these calls, each with what it tells, and nothing changes. */
static void codes_of_changes(struct tcam_manager *manager) {
    struct tcam_rule rule = {.number = 1, .protocol = TCAM_ANY_PROTOCOL}, wrong = rule;
    struct tcam_rule6 rule6 = {.number = 0};
    CHECK(tcam_put_route(NULL, 0, 0, 0) == TCAM_NULL && tcam_drop_rule(NULL, 1) == TCAM_NULL);
    CHECK(tcam_put_rule(manager, NULL) == TCAM_NULL && tcam_put_rule6(manager, NULL) == TCAM_NULL);
    CHECK(tcam_prepare_all(manager, &numbers, NULL) == TCAM_NULL);
    CHECK(tcam_put_route(manager, 0, 33, 0) == TCAM_PREFIX_LENGTH && tcam_drop_route(manager, 1, 31) == TCAM_HOST_BITS);
    CHECK(tcam_put_route6(manager, six(1), 55, 0) == TCAM_HOST_BITS);
    CHECK(tcam_drop_route6(manager, six(1), 129) == TCAM_PREFIX_LENGTH);
    CHECK(tcam_put_rule6(manager, &rule6) == TCAM_NUMBER && tcam_drop_rule(manager, 0) == TCAM_NUMBER);
    wrong.source_port_first = 1;
    CHECK(tcam_put_rule(manager, &wrong) == TCAM_PORTS);
    wrong = rule;
    wrong.protocol = 257;
    CHECK(tcam_put_rule(manager, &wrong) == TCAM_PROTOCOL);
    /* the batch is empty still, and full behind 4,096 changes, of which the last one counts */
    for (uint32_t i = 0; i < 4096; i++) CHECK(tcam_put_route(manager, 0, 0, i) == TCAM_OK);
    CHECK(tcam_put_route(manager, 0, 0, 1) == TCAM_BATCH_FULL && tcam_add_route(manager, 0, 0, 1) == TCAM_BATCH_FULL);
    CHECK(tcam_prepare(manager, &numbers, &refusal) == TCAM_OK && numbers.writes == 1);
    CHECK(tcam_made(manager) == TCAM_OK);
    for (uint32_t i = 0; i < 4096; i++) CHECK(tcam_set_route(manager, 0, 0, i) == TCAM_OK);
    CHECK(tcam_drop_route(manager, 0, 0) == TCAM_BATCH_FULL && tcam_clear(manager) == TCAM_OK);
}

static void codes(void) {
    struct tcam_manager manager = TCAM_MANAGER_NONE;
    struct tcam_write write;
    CHECK(tcam_put_route(&manager, 0, 0, 0) == TCAM_NO_MANAGER && tcam_drop_rule(&manager, 1) == TCAM_NO_MANAGER);
    CHECK(tcam_prepare_all(&manager, &numbers, &refusal) == TCAM_NO_MANAGER);
    CHECK(tcam_new(&manager, 4, TCAM_COVER, TCAM_RANK) == TCAM_OK);
    codes_of_changes(&manager);
    /* 0.0.0.0/0 has the result 4095: a put that says so writes nothing, nor does a drop of what isn't there */
    CHECK(tcam_put_route(&manager, 0, 0, 4095) == TCAM_OK && tcam_drop_route(&manager, 0x0a000000u, 8) == TCAM_OK);
    CHECK(tcam_prepare(&manager, &numbers, &refusal) == TCAM_OK && numbers.writes == 0);
    /* a rule that a strict and a forgiving change name is told at the later of the two, behind no fault of a strict one */
    CHECK(tcam_put_rule(&manager, &(struct tcam_rule){.number = 3}) == TCAM_OK && tcam_del_rule(&manager, 3) == TCAM_OK);
    CHECK(tcam_prepare(&manager, &numbers, &refusal) == TCAM_TWICE && tcam_rule_number(refusal.tag) == 3);
    CHECK(tcam_clear(&manager) == TCAM_OK && tcam_del_rule(&manager, 5) == TCAM_OK && tcam_drop_rule(&manager, 5) == TCAM_OK);
    CHECK(tcam_prepare(&manager, &numbers, &refusal) == TCAM_ABSENT && tcam_rule_number(refusal.tag) == 5);
    /* a whole list names no rule twice by strict changes, and changes none that isn't among them */
    CHECK(tcam_clear(&manager) == TCAM_OK && tcam_add_route(&manager, 0, 0, 1) == TCAM_OK);
    CHECK(tcam_add_route(&manager, 0, 0, 2) == TCAM_OK && tcam_prepare_all(&manager, &numbers, &refusal) == TCAM_TWICE);
    CHECK(tcam_clear(&manager) == TCAM_OK && tcam_set_route(&manager, 0, 0, 1) == TCAM_OK);
    CHECK(tcam_prepare_all(&manager, &numbers, &refusal) == TCAM_ABSENT && tcam_clear(&manager) == TCAM_OK);
    /* more entries than slots are free, the old ones counted as taken */
    for (uint32_t i = 0; i < 4; i++) CHECK(tcam_put_route(&manager, i << 24, 8, i) == TCAM_OK);
    CHECK(tcam_prepare_all(&manager, &numbers, &refusal) == TCAM_SLOTS && refusal.need == 4 && refusal.free == 3);
    CHECK(tcam_clear(&manager) == TCAM_OK && tcam_put_route(&manager, 0x0a000000u, 8, 1) == TCAM_OK);
    CHECK(tcam_prepare(&manager, &numbers, &refusal) == TCAM_OK && numbers.writes > 0);
    /* busy whatever the changes are */
    CHECK(tcam_put_rule(&manager, &(struct tcam_rule){.number = 3}) == TCAM_OK && tcam_del_rule(&manager, 3) == TCAM_OK);
    CHECK(tcam_prepare(&manager, &numbers, &refusal) == TCAM_BUSY && refusal.left == numbers.writes);
    CHECK(tcam_prepare_all(&manager, &numbers, &refusal) == TCAM_BUSY && refusal.left == numbers.writes);
    CHECK(tcam_next(&manager, &write) == TCAM_OK && write.kind == TCAM_PUT);
    CHECK(tcam_free(&manager) == TCAM_OK);
}

/* A put, a drop and a whole list with each allocation failing in turn: want of memory is told, and then the same call does
 * what it would have done. Answers how many allocations there are. */
static unsigned long wants_memory(bool split, unsigned long nth) {
    struct tcam_manager manager = TCAM_MANAGER_NONE;
    enum tcam_error error;
    allocations = 0;
    failing = nth;
    while ((error = (split ? tcam_new_split : tcam_new)(&manager, 8, TCAM_BY_BITS, TCAM_RANK)) != TCAM_OK)
        CHECK(error == TCAM_MEMORY);
    for (uint32_t i = 0; i < 3; i++) {
        while ((error = tcam_add_route(&manager, i << 24, 8, i)) != TCAM_OK) CHECK(error == TCAM_MEMORY);
        while ((error = tcam_put_route(&manager, 0x0a000000u, 8, 9)) != TCAM_OK) CHECK(error == TCAM_MEMORY);
        while ((error = tcam_drop_route(&manager, (i + 1) << 24, 8)) != TCAM_OK) CHECK(error == TCAM_MEMORY);
        while ((error = (i == 2 ? tcam_prepare_all : tcam_prepare)(&manager, &numbers, &refusal)) != TCAM_OK)
            CHECK(error == TCAM_MEMORY);
        unsigned long taken = allocations;
        while ((error = tcam_made(&manager)) == TCAM_OK || error == TCAM_DRAIN_DUE)
            if (error == TCAM_DRAIN_DUE) CHECK(tcam_drained(&manager) == TCAM_OK);
        CHECK(error == TCAM_NOTHING_DUE && allocations == taken);
    }
    uint32_t slots = 0;
    CHECK(tcam_free_slots(&manager, &slots) == TCAM_OK && slots == 6 && tcam_free(&manager) == TCAM_OK);
    failing = 0;
    return allocations;
}

int main(void) {
    codes();
    for (int mode = TCAM_COVER; mode <= TCAM_BY_BITS; mode++)
        for (int placement = TCAM_MIDDLE; placement <= TCAM_ENDS; placement++)
            feed((enum tcam_mode)mode, (enum tcam_placement)placement);
    restarts(false);
    restarts(true);
    routes();
    for (int split = 0; split < 2; split++) {
        unsigned long nth = 1;
        while (wants_memory(split, nth) >= nth) nth++;
        printf("feeds: allocations that failed in turn: %lu\n", nth - 1);
    }
    return 0;
}
