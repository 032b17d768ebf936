/* A driver over a memory whose results stand beside its slots: an array of values and masks, and an array of result
 * words. A look-up is two events: a search finds the least slot that hits, and the slot's result word is read later. The
 * driver makes the parts that tcam_next tells, each as often as it fails, and waits where a drain is due. Between any two
 * parts packets are searched and earlier ones read, also over commits: each reads what a look-up that is made whole
 * answered at some moment between the two, and every such answer is the old rules' or the new ones'. The same commits with
 * the drains told and not waited for must show a packet that reads another answer, so that this check is known to see one.
 * */
#include "lists.h"
#include "tries.h"

#include <string.h>

#define SLOTS 64
#define PORTS 65536

/* The memory. */
static struct cell {
    bool used;
    uint32_t value[TCAM_LANES];
    uint32_t mask[TCAM_LANES];
} cells[SLOTS];
static uint32_t results[SLOTS];
static uint16_t tables[2][PORTS];
static unsigned calls;

static void make(const struct tcam_write *part) {
    CHECK(part->from == TCAM_NO_SLOT);
    switch (part->kind) {
    case TCAM_PUT:
        memcpy(cells[part->slot].value, part->value, sizeof part->value);
        memcpy(cells[part->slot].mask, part->mask, sizeof part->mask);
        cells[part->slot].used = true;
        break;
    case TCAM_ERASE: cells[part->slot].used = false; break;
    case TCAM_RESULT: results[part->slot] = part->result; break;
    case TCAM_WORD: tables[part->field][part->port] = (uint16_t)part->word; break;
    default: CHECK(!"a kind that this driver doesn't know");
    }
}

/* Every seventh part fails, and of these every other one was made all the same. */
static bool put(const struct tcam_write *part) {
    bool fails = ++calls % 7 == 0;
    if (!fails || calls % 2 == 0) make(part);
    return !fails;
}

/* The least slot that hits a packet's search word now, or -1. */
static int search(const struct tcam_key *key) {
    uint32_t word[TCAM_LANES] = {[0] = key->source, [4] = key->destination};
    word[8] = (uint32_t)key->source_port << 16 | key->destination_port;
    word[9] = (uint32_t)key->protocol << 24;
    word[10] = (uint32_t)tables[TCAM_SOURCE][key->source_port] << 16 | tables[TCAM_DESTINATION][key->destination_port];
    for (int slot = 0; slot < SLOTS; slot++) {
        uint32_t off = !cells[slot].used;
        for (int lane = 0; lane < TCAM_LANES; lane++) off |= (word[lane] ^ cells[slot].value[lane]) & cells[slot].mask[lane];
        if (off == 0) return slot;
    }
    return -1;
}

/* What is read at a slot that was found: a result, or -1. */
static int64_t read_at(int slot) {
    return slot < 0 ? -1 : (int64_t)results[slot];
}

/* Look-ups that were searched and wait for their read, with what a look-up that is made whole answered since. */
#define WAITING 16
#define MOMENTS 256
static struct look {
    struct tcam_key key;
    int slot;
    unsigned moments;
    int64_t answers[MOMENTS];
} looks[WAITING];
static unsigned waiting;

static struct draws draws;
static struct counts {
    unsigned commits, drains, reads, neither;
    uint64_t parts;
} counts;

/* Before the first part and after each try of one: a look-up that is made whole gets the old or the new answer, and each
 * that waits has one moment more. */
static void moment(const struct list *old, const struct list *new) {
    for (unsigned i = 0; i < waiting; i++) {
        struct look *look = &looks[i];
        int64_t answer = read_at(search(&look->key));
        CHECK(answer == list_answer(old, &look->key) || answer == list_answer(new, &look->key));
        if (look->answers[look->moments - 1] == answer) continue;
        CHECK(look->moments < MOMENTS);
        look->answers[look->moments++] = answer;
    }
}

static void begin(const struct list *old, const struct list *new) {
    struct look *look = &looks[waiting++];
    look->key = key_at_random(&draws);
    look->slot = search(&look->key);
    look->answers[0] = read_at(look->slot);
    look->moments = 1;
    CHECK(look->answers[0] == list_answer(old, &look->key) || look->answers[0] == list_answer(new, &look->key));
}

/* The oldest look-up reads its result word. */
static void read_oldest(void) {
    int64_t got = read_at(looks[0].slot);
    bool told = false;
    for (unsigned i = 0; i < looks[0].moments; i++) told |= looks[0].answers[i] == got;
    counts.reads++;
    counts.neither += !told;
    memmove(looks, looks + 1, --waiting * sizeof *looks);
}

static void look_up(const struct list *old, const struct list *new) {
    for (int i = 0; i < 6; i++) {
        if (waiting < WAITING && below(&draws, 2)) begin(old, new);
        else if (waiting > 0 && below(&draws, 3) == 0) read_oldest();
    }
}

/* A drain: every look-up that waits is read. Told and not waited for, it is the mistake that this check is to see. */
static void drain(struct tcam_manager *manager, bool waits) {
    CHECK(tcam_made(manager) == TCAM_DRAIN_DUE);
    while (waits && waiting > 0) read_oldest();
    CHECK(tcam_drained(manager) == TCAM_OK && tcam_drained(manager) != TCAM_OK);
    counts.drains++;
}

/* Makes the parts and drains of the commit under way. Answers how many parts it made. */
static uint64_t carry_out(struct tcam_manager *manager, const struct list *old, const struct list *new, bool waits) {
    struct tcam_write part;
    struct tcam_key key = key_at_random(&draws);
    struct tcam_answer answer;
    uint64_t parts = 0, left;
    while (tcam_next(manager, &part) == TCAM_OK && part.kind != TCAM_NOTHING) {
        look_up(old, new);
        if (part.kind == TCAM_DRAIN) {
            drain(manager, waits);
            continue;
        }
        bool made = put(&part);
        moment(old, new);
        if (!made) continue; /* the same part is due */
        CHECK(tcam_drained(manager) == TCAM_WRITE_DUE && tcam_made(manager) == TCAM_OK);
        parts++;
        CHECK(tcam_answer(manager, &key, &answer) == TCAM_OK);
        int64_t told = answer.found ? (int64_t)answer.result : -1;
        CHECK(told == list_answer(old, &key) || told == list_answer(new, &key));
        CHECK(tcam_next(manager, &part) == TCAM_OK);
        CHECK(tcam_abort(manager, &left) == (part.kind == TCAM_NOTHING ? TCAM_NOTHING_DUE : TCAM_BEGUN));
    }
    moment(new, new);
    CHECK(list_is_told(new, manager));
    CHECK(tcam_made(manager) == TCAM_NOTHING_DUE && tcam_drained(manager) == TCAM_NOTHING_DUE);
    return parts;
}

/* Some changes at random, in the batch and in a list. */
static void change(struct tcam_manager *manager, struct list *list) {
    bool named[NUMBERS] = {false};
    for (uint32_t changes = 1 + below(&draws, 5); changes > 0; changes--) {
        uint32_t at = below(&draws, NUMBERS);
        if (named[at]) continue;
        named[at] = true;
        if (!list->there[at]) {
            list->rules[at] = rule_at_random(&draws, 1 + at, 1000);
            list->there[at] = true;
            CHECK(tcam_add_rule(manager, &list->rules[at]) == TCAM_OK);
        } else if (below(&draws, 2)) {
            list->rules[at].result = below(&draws, 1000);
            CHECK(tcam_set_rule(manager, 1 + at, list->rules[at].result) == TCAM_OK);
        } else {
            list->there[at] = false;
            CHECK(tcam_del_rule(manager, 1 + at) == TCAM_OK);
        }
    }
}

/* A commit of some changes; of every fifth the plan is dropped first, and made again. */
static void commit(struct tcam_manager *manager, struct list *old, bool waits) {
    struct list new = *old;
    struct tcam_numbers numbers;
    struct tcam_refusal refusal;
    uint32_t seed = draws.seed, longest;
    uint64_t left = 99;
    CHECK(tcam_longest_chain(manager, &longest) == TCAM_OK && longest == list_longest_chain(old));
    change(manager, &new);
    enum tcam_error error = tcam_prepare(manager, &numbers, &refusal);
    if (error != TCAM_OK) {
        CHECK((error == TCAM_SLOTS || error == TCAM_BITS) && refusal.need > refusal.free);
        CHECK(tcam_clear(manager) == TCAM_OK);
        return;
    }
    if (counts.commits % 5 == 0 && numbers.writes > 0) {
        CHECK(tcam_abort(manager, &left) == TCAM_OK && left == 0 && tcam_made(manager) == TCAM_NOTHING_DUE);
        draws.seed = seed;
        new = *old;
        change(manager, &new);
        CHECK(tcam_prepare(manager, &numbers, &refusal) == TCAM_OK);
    }
    CHECK(carry_out(manager, old, &new, waits) == numbers.writes);
    *old = new;
    counts.commits++;
    counts.parts += numbers.writes;
}

static void commits(enum tcam_mode mode, enum tcam_placement placement, bool waits) {
    static struct list list;
    struct tcam_manager manager = TCAM_MANAGER_NONE;
    memset(cells, 0, sizeof cells);
    memset(results, 0, sizeof results);
    memset(tables, 0, sizeof tables);
    memset(&list, 0, sizeof list);
    memset(&counts, 0, sizeof counts);
    draws.seed = 1;
    waiting = calls = 0;
    CHECK(tcam_new_split(&manager, SLOTS, mode, placement) == TCAM_OK);
    for (int i = 0; i < 200; i++) commit(&manager, &list, waits);
    while (waiting > 0) read_oldest();
    CHECK(tcam_free(&manager) == TCAM_OK);
}

int main(void) {
    for (int mode = TCAM_COVER; mode <= TCAM_BY_BITS; mode++) {
        for (int placement = TCAM_MIDDLE; placement <= TCAM_ENDS; placement++) {
            commits((enum tcam_mode)mode, (enum tcam_placement)placement, true);
            CHECK(counts.neither == 0 && counts.drains > 0);
            printf("mode %d placement %d: %u commits in %llu parts with %u drains, %u look-ups read; ", mode, placement,
                   counts.commits, (unsigned long long)counts.parts, counts.drains, counts.reads);
            commits((enum tcam_mode)mode, (enum tcam_placement)placement, false);
            CHECK(counts.neither > 0);
            printf("with no drain waited for %u of %u read neither answer\n", counts.neither, counts.reads);
        }
    }
    return 0;
}
