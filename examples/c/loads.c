/* 4,096 changes in one commit, of routes and of an access list, over 4,096 slots that are an array here, with the results
 * in the slots or beside them: a first load, new results, and removals. Behind each write, or part of one, a packet is
 * looked up by a plain loop. It prints the first thing that is wrong, and fails. */
#include "tries.h"

#include <string.h>

#define ENTRIES 4096
#define PACKETS 64

/* Rules in falling priority, by prefixes alone, and packets with what all the rules answer. */
struct load {
    const char *name;
    bool routes;
    bool split;
    enum tcam_placement placement;
    struct tcam_rule rules[ENTRIES];
    struct tcam_key keys[PACKETS];
    int64_t wanted[PACKETS];
};

static struct tcam_write slots[ENTRIES]; /* the entry of each, or TCAM_ERASE and TCAM_NOTHING where it is empty */
static uint32_t results[ENTRIES];        /* the result of each */
static unsigned drains;

static uint32_t mask_of(uint8_t length) { return length == 0 ? 0 : UINT32_MAX << (32 - length); }

static int64_t rules_answer(const struct load *load, const struct tcam_key *key) {
    for (int i = 0; i < ENTRIES; i++) {
        const struct tcam_rule *rule = &load->rules[i];
        if (((rule->source ^ key->source) & mask_of(rule->source_length)) == 0 &&
            ((rule->destination ^ key->destination) & mask_of(rule->destination_length)) == 0)
            return rule->result;
    }
    return -1;
}

static int64_t slots_answer(const struct tcam_key *key) {
    uint32_t word[TCAM_LANES] = {0};
    word[0] = key->source;
    word[4] = key->destination;
    for (int slot = 0; slot < ENTRIES; slot++) {
        const struct tcam_write *entry = &slots[slot];
        bool hits = entry->kind == TCAM_PUT;
        for (int lane = 0; hits && lane < TCAM_LANES; lane++)
            hits = ((word[lane] ^ entry->value[lane]) & entry->mask[lane]) == 0;
        if (hits) return results[slot];
    }
    return -1;
}

/* Route i of 4,096, the longest ones first: those of 24 bits stand in those of 20, these in those of 16, and so on. */
static struct tcam_rule route(uint32_t i) {
    struct tcam_rule rule = {.result = i, .protocol = TCAM_ANY_PROTOCOL};
    if (i < 3072) {
        rule.destination_length = 24, rule.destination = 10u << 24 | i << 8;
    } else if (i < 3840) {
        rule.destination_length = 20, rule.destination = 10u << 24 | (i - 3072) << 12;
    } else if (i < 4080) {
        rule.destination_length = 16, rule.destination = 10u << 24 | (i - 3840) << 16;
    } else {
        rule.destination_length = 8, rule.destination = (i - 4079) << 24;
    }
    return rule;
}

/* Rule i of a list of 128 sites, each of 32 rules that overlap in part. */
static struct tcam_rule site_rule(uint32_t i) {
    struct tcam_rule rule = {.number = i + 1, .result = i, .protocol = TCAM_ANY_PROTOCOL, .source_port_last = 65535,
                             .destination_port_last = 65535};
    rule.source_length = i % 4 == 0 ? 0 : 24;
    rule.source = i % 4 == 0 ? 0 : 172u << 24 | i % 7 << 8;
    rule.destination_length = i % 3 == 0 ? 16 : 24;
    rule.destination = (10u << 24 | i / 32 << 16 | i % 5 << 8) & mask_of(rule.destination_length);
    return rule;
}

static void make_load(struct load *load) {
    for (uint32_t i = 0; i < ENTRIES; i++) load->rules[i] = load->routes ? route(i) : site_rule(i);
    for (uint32_t i = 0; i < PACKETS; i++) {
        const struct tcam_rule *rule = &load->rules[i * 2731 % ENTRIES];
        load->keys[i] = (struct tcam_key){.source = rule->source + i % 9, .destination = rule->destination + i % 9};
        load->wanted[i] = rules_answer(load, &load->keys[i]);
    }
}

/* What is to come of each rule in a commit; new results are those of before and ENTRIES more. */
enum change { ADDED, SET, REMOVED };

/* What a packet is answered behind such a commit. */
static int64_t answer_after(const struct load *load, enum change change, int packet) {
    int64_t wanted = load->wanted[packet];
    return wanted < 0 || change == REMOVED ? -1 : wanted + (change == SET ? ENTRIES : 0);
}

static void make(const struct load *load, const struct tcam_write *write) {
    CHECK(write->slot < ENTRIES);
    CHECK(write->kind == TCAM_PUT || write->kind == TCAM_ERASE || (load->split && write->kind == TCAM_RESULT));
    if (write->kind == (load->split ? TCAM_RESULT : TCAM_PUT)) results[write->slot] = write->result;
    if (write->kind != TCAM_RESULT) slots[write->slot] = *write;
}

/* Makes so many writes of the commit that is under way, between two states of the rules. No look-up is under way. */
static void make_writes(struct tcam_manager *manager, const struct load *load, uint64_t writes, enum change old,
                        enum change new) {
    struct tcam_write write;
    for (uint64_t made = 0; made < writes;) {
        CHECK(tcam_next(manager, &write) == TCAM_OK);
        if (write.kind == TCAM_DRAIN) {
            CHECK(load->split && tcam_drained(manager) == TCAM_OK);
            drains++;
            continue;
        }
        make(load, &write);
        CHECK(tcam_made(manager) == TCAM_OK);
        int packet = (int)(made++ % PACKETS);
        int64_t got = slots_answer(&load->keys[packet]);
        CHECK(got == answer_after(load, old, packet) || got == answer_after(load, new, packet));
    }
}

/* Nothing is due: the memory holds the rules as such a commit leaves them. */
static void ended(struct tcam_manager *manager, const struct load *load, enum change change) {
    struct tcam_write write;
    CHECK(tcam_next(manager, &write) == TCAM_OK && write.kind == TCAM_NOTHING);
    for (int i = 0; i < PACKETS; i++) CHECK(slots_answer(&load->keys[i]) == answer_after(load, change, i));
    int used = 0;
    for (int slot = 0; slot < ENTRIES; slot++) used += slots[slot].kind == TCAM_PUT;
    CHECK(used == (change == REMOVED ? 0 : ENTRIES));
}

/* Puts a change of each rule into the batch, in an order that isn't theirs. */
static void change_all(struct tcam_manager *manager, const struct load *load, enum change change) {
    for (uint32_t i = 0; i < ENTRIES; i++) {
        const struct tcam_rule *rule = &load->rules[(i * 1365 + 7) % ENTRIES];
        uint32_t address = rule->destination, result = rule->result + (change == SET ? ENTRIES : 0);
        uint8_t length = rule->destination_length;
        enum tcam_error error;
        if (load->routes)
            error = change == ADDED ? tcam_add_route(manager, address, length, result)
                    : change == SET ? tcam_set_route(manager, address, length, result)
                                    : tcam_del_route(manager, address, length);
        else
            error = change == ADDED ? tcam_add_rule(manager, rule)
                    : change == SET ? tcam_set_rule(manager, rule->number, result)
                                    : tcam_del_rule(manager, rule->number);
        CHECK(error == TCAM_OK);
    }
}

/* A commit that changes each rule, and what its numbers are. */
static struct tcam_numbers commit(struct tcam_manager *manager, const struct load *load, enum change old, enum change new) {
    struct tcam_numbers numbers;
    struct tcam_refusal refusal;
    change_all(manager, load, new);
    CHECK(tcam_prepare(manager, &numbers, &refusal) == TCAM_OK);
    drains = 0;
    make_writes(manager, load, numbers.writes, old, new);
    ended(manager, load, new);
    return numbers;
}

/* A load that is taken back behind half of its entries. */
static void load_and_take_back(struct tcam_manager *manager, const struct load *load) {
    struct tcam_numbers numbers;
    struct tcam_refusal refusal;
    uint64_t left = 0;
    change_all(manager, load, ADDED);
    CHECK(tcam_prepare(manager, &numbers, &refusal) == TCAM_OK);
    make_writes(manager, load, numbers.writes / 2, REMOVED, ADDED);
    CHECK(tcam_abort(manager, &left) == TCAM_OK && left == numbers.writes / 2);
    make_writes(manager, load, left, REMOVED, ADDED);
    ended(manager, load, REMOVED);
}

/* A load, new results, and removals. By rank each entry finds its slot free: a write each, or two parts. */
static struct tcam_numbers load_and_clear(struct load *load) {
    struct tcam_manager manager = TCAM_MANAGER_NONE;
    struct tcam_refusal refusal;
    struct tcam_numbers none;
    make_load(load);
    memset(slots, 0, sizeof slots);
    memset(results, 0, sizeof results);
    CHECK((load->split ? tcam_new_split : tcam_new)(&manager, ENTRIES, TCAM_COVER, load->placement) == TCAM_OK);
    if (!load->split) load_and_take_back(&manager, load);
    struct tcam_numbers loaded = commit(&manager, load, REMOVED, ADDED);
    if (load->placement == TCAM_RANK)
        CHECK(loaded.most == (load->split ? 2u : 1u) && loaded.writes == loaded.most * ENTRIES && drains == 0);
    CHECK(tcam_add_route(&manager, 0xc0000000, 2, 1) == TCAM_OK);
    CHECK(tcam_prepare(&manager, &none, &refusal) == TCAM_SLOTS && refusal.need == 1 && refusal.free == 0);
    CHECK(tcam_clear(&manager) == TCAM_OK);
    /* a look-up may have found its slot before the load: one drain, ahead of the first result word */
    CHECK(commit(&manager, load, ADDED, SET).writes == ENTRIES && drains == load->split);
    CHECK(commit(&manager, load, SET, REMOVED).writes == ENTRIES && drains == 0);
    /* likewise where the slots were erased since, if no entry moves */
    if (load->placement == TCAM_RANK)
        CHECK(commit(&manager, load, REMOVED, ADDED).writes == loaded.writes && drains == load->split);
    CHECK(tcam_free(&manager) == TCAM_OK);
    printf("%s: %llu writes, %u for the longest insertion", load->name, (unsigned long long)loaded.writes, loaded.most);
    return loaded;
}

/* By parts an insertion of so many writes takes three for each, but for one of them. */
static void load_both(struct load *load) {
    struct tcam_numbers whole = load_and_clear(load);
    load->split = true;
    printf("\nby parts ");
    struct tcam_numbers parts = load_and_clear(load);
    CHECK(parts.writes == 3 * whole.writes - ENTRIES && parts.most == 3 * whole.most - 1 && parts.span == whole.span);
    printf("\n");
}

int main(void) {
    static struct load loads[] = {{.name = "4,096 routes, middle", .routes = true, .placement = TCAM_MIDDLE},
                                  {.name = "4,096 routes, rank", .routes = true, .placement = TCAM_RANK},
                                  {.name = "a list of 4,096 rules, middle", .placement = TCAM_MIDDLE},
                                  {.name = "a list of 4,096 rules, rank", .placement = TCAM_RANK}};
    for (size_t i = 0; i < sizeof loads / sizeof *loads; i++) load_both(&loads[i]);
    return 0;
}
