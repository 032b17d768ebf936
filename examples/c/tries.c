/* Tries of the library from C: commits at random, carried out, or taken back after each count of writes, whose slots
 * are compared after every write with the old and the new rules by plain loops; every wrong use that is answered by a
 * code; no memory between a prepare and the last write; and each allocation failing in turn. It prints the first thing
 * that is wrong, and fails. */
#include "lists.h"
#include "registers.h"
#include "tries.h"

#include <string.h>

/* The allocations of the library, which the linker sends here. */
void *__real_malloc(size_t size);
void *__real_realloc(void *block, size_t size);
static unsigned long allocations, failing;

void *__wrap_malloc(size_t size) {
    return ++allocations == failing ? NULL : __real_malloc(size);
}

void *__wrap_realloc(void *block, size_t size) {
    return ++allocations == failing ? NULL : __real_realloc(block, size);
}

/* Numbers at random, the same in every run. */
static struct draws draws = {1};

/* The library tells the rules of a list one by one, and how many slots are free. */
static void compare_rules(struct tcam_manager *manager, const struct registers *registers, const struct list *list) {
    uint32_t free = SLOTS, told = 0;
    for (int slot = 0; slot < SLOTS; slot++) free -= registers->slots[slot].used;
    CHECK(list_is_told(list, manager));
    CHECK(tcam_free_slots(manager, &told) == TCAM_OK && told == free);
}

/* The registers and the library's own answer agree with the old rules or with the new ones. */
static void compare(struct tcam_manager *manager, const struct registers *registers, const struct list *old,
                    const struct list *new) {
    for (int i = 0; i < 40; i++) {
        struct tcam_key key = key_at_random(&draws);
        struct tcam_answer answer;
        int64_t was = list_answer(old, &key), is = list_answer(new, &key), got = registers_answer(registers, &key);
        CHECK(got == was || got == is);
        CHECK(tcam_answer(manager, &key, &answer) == TCAM_OK);
        int64_t told = answer.found ? (int64_t)answer.result : -1;
        CHECK(told == was || told == is);
    }
}

/* Look-ups under way: packets whose words were made, and not searched yet. */
#define IN_FLIGHT 16
static struct flight {
    struct tcam_key key;
    uint32_t word[TCAM_LANES];
} flight[IN_FLIGHT];
static unsigned flying, drains, turned, moved;

/* Searches the oldest look-up, whose answer is that of the old rules or of the new ones. */
static void search(const struct registers *registers, const struct list *old, const struct list *new) {
    int64_t got = registers_search(registers, flight[0].word);
    CHECK(got == list_answer(old, &flight[0].key) || got == list_answer(new, &flight[0].key));
    memmove(flight, flight + 1, --flying * sizeof *flight);
}

/* Some look-ups are begun and some searched, at random. */
static void look_up(const struct registers *registers, const struct list *old, const struct list *new) {
    for (int i = 0; i < 8; i++) {
        if (flying < IN_FLIGHT && below(&draws, 2)) {
            flight[flying].key = key_at_random(&draws);
            registers_translate(registers, &flight[flying].key, flight[flying].word);
            flying++;
        } else if (flying > 0) {
            search(registers, old, new);
        }
    }
}

static bool same_write(const struct tcam_write *a, const struct tcam_write *b) {
    return a->kind == b->kind && a->slot == b->slot && a->from == b->from && !memcmp(a->value, b->value, sizeof a->value) &&
           !memcmp(a->mask, b->mask, sizeof a->mask) && same_tag(a->tag, b->tag) && a->result == b->result &&
           a->field == b->field && a->port == b->port && a->word == b->word;
}

/* What is due has 0 in each field that its kind doesn't name, and comes from a slot only where it is an entry. */
static bool is_plain(const struct tcam_write *write) {
    struct tcam_write plain = {.kind = write->kind, .from = TCAM_NO_SLOT};
    if (write->kind == TCAM_PUT) {
        plain = *write;
        plain.field = plain.port = plain.word = 0;
    } else if (write->kind == TCAM_ERASE) {
        plain.slot = write->slot;
    } else if (write->kind == TCAM_WORD) {
        plain.field = write->field;
        plain.port = write->port;
        plain.word = write->word;
    }
    return same_write(write, &plain);
}

/* The least slot that holds an entry which is to be put, or none. */
static uint32_t holder(const struct registers *registers, const struct tcam_write *write) {
    for (uint32_t at = 0; write->kind == TCAM_PUT && at < SLOTS; at++) {
        const struct slot *slot = &registers->slots[at];
        if (slot->used && !memcmp(slot->value, write->value, sizeof slot->value) && slot->result == write->result &&
            !memcmp(slot->mask, write->mask, sizeof slot->mask) && same_tag(slot->tag, write->tag))
            return at;
    }
    return TCAM_NO_SLOT;
}

/* A drain is due: nothing but tcam_drained goes on, and only once every look-up under way was searched. */
static void drain(struct tcam_manager *manager, const struct registers *registers, const struct list *old,
                  const struct list *new) {
    struct tcam_write again;
    CHECK(tcam_made(manager) == TCAM_DRAIN_DUE);
    CHECK(tcam_next(manager, &again) == TCAM_OK && again.kind == TCAM_DRAIN);
    while (flying > 0) search(registers, old, new);
    CHECK(tcam_drained(manager) == TCAM_OK);
    CHECK(tcam_drained(manager) != TCAM_OK);
    drains++;
}

/* Makes what is due, a write as often as it fails, and compares after each try. Look-ups are under way all the time.
 * Answers the kind. */
static uint32_t make_due(struct tcam_manager *manager, struct registers *registers, const struct list *old,
                         const struct list *new) {
    struct tcam_write write, again;
    memset(&write, 0xff, sizeof write);
    CHECK(tcam_next(manager, &write) == TCAM_OK && is_plain(&write));
    if (write.kind == TCAM_NOTHING) return TCAM_NOTHING;
    CHECK(write.from == holder(registers, &write));
    moved += write.from != TCAM_NO_SLOT;
    look_up(registers, old, new);
    if (write.kind == TCAM_DRAIN) {
        drain(manager, registers, old, new);
    } else {
        while (!registers_put(registers, &write)) {
            CHECK(tcam_next(manager, &again) == TCAM_OK && same_write(&write, &again));
            compare(manager, registers, old, new);
        }
        CHECK(tcam_made(manager) == TCAM_OK);
    }
    compare(manager, registers, old, new);
    return write.kind;
}

/* Makes the writes and the drain of the commit under way, there or back. The rules are the last ones then, and the
 * look-ups that are still under way are searched. Answers how many writes it made. */
static uint64_t carry_out(struct tcam_manager *manager, struct registers *registers, const struct list *old,
                          const struct list *new, const struct list *last) {
    uint64_t made = 0;
    uint32_t kind;
    compare(manager, registers, old, new);
    while ((kind = make_due(manager, registers, old, new)) != TCAM_NOTHING) {
        made += kind != TCAM_DRAIN;
        CHECK(list_is_told(old, manager) || list_is_told(last, manager));
    }
    compare(manager, registers, last, last);
    compare_rules(manager, registers, last);
    while (flying > 0) search(registers, old, new);
    CHECK(tcam_made(manager) == TCAM_NOTHING_DUE && tcam_drained(manager) == TCAM_NOTHING_DUE);
    return made;
}

/* Some changes at random, in the batch and in a list. */
static void change(struct tcam_manager *manager, struct list *list) {
    bool named[NUMBERS] = {false};
    for (uint32_t changes = 1 + below(&draws, 5); changes > 0; changes--) {
        uint32_t at = below(&draws, NUMBERS);
        if (named[at]) continue;
        named[at] = true;
        if (!list->there[at]) {
            list->rules[at] = rule_at_random(&draws, 1 + at, 1000);
            list->there[at] = true;
            CHECK(tcam_add_rule(manager, &list->rules[at]) == TCAM_OK);
        } else if (below(&draws, 2)) {
            list->rules[at].result = below(&draws, 1000);
            CHECK(tcam_set_rule(manager, 1 + at, list->rules[at].result) == TCAM_OK);
        } else {
            list->there[at] = false;
            CHECK(tcam_del_rule(manager, 1 + at) == TCAM_OK);
        }
    }
}

static bool same_memory(const struct registers *a, const struct registers *b) {
    for (int i = 0; i < SLOTS; i++) {
        const struct slot *one = &a->slots[i], *other = &b->slots[i];
        if (one->used != other->used) return false;
        if (one->used && (memcmp(one->value, other->value, sizeof one->value) ||
                          memcmp(one->mask, other->mask, sizeof one->mask) || one->result != other->result))
            return false;
    }
    return !memcmp(a->tables, b->tables, sizeof a->tables);
}

/* A commit under way is turned round with so many writes made: a second time is one too often, no drain is due, and
 * once they are undone the memory is what it was before the commit. */
static void turn_round(struct tcam_manager *manager, struct registers *registers, const struct list *old,
                       const struct list *new, const struct registers *before, uint64_t made) {
    uint64_t left = 99, again = 99;
    unsigned drained = drains;
    CHECK(tcam_abort(manager, &left) == TCAM_OK && left == made);
    if (made > 0) {
        CHECK(tcam_abort(manager, &again) == TCAM_BACK && again == made && tcam_drained(manager) == TCAM_WRITE_DUE);
        CHECK(make_due(manager, registers, old, new) != TCAM_NOTHING);
        CHECK(tcam_abort(manager, &again) == (made > 1 ? TCAM_BACK : TCAM_NOTHING_DUE));
        CHECK(again == made - (made > 1));
    }
    CHECK(carry_out(manager, registers, old, new, old) == made - (made > 0) && drains == drained);
    CHECK(same_memory(registers, before) && tcam_abort(manager, &left) == TCAM_NOTHING_DUE && left == made);
}

/* Takes the commit of the changes that come with a seed back after each count of writes, in half of the cases behind a
 * drain that is due then. */
static void take_back(struct tcam_manager *manager, struct registers *registers, const struct list *old,
                      uint32_t changes) {
    static struct registers before;
    struct tcam_numbers numbers = {.writes = 1};
    struct tcam_refusal refusal;
    struct tcam_write write;
    for (uint64_t writes = 0; writes < numbers.writes; writes++) {
        struct list new = *old;
        draws.seed = changes;
        change(manager, &new);
        before = *registers;
        if (tcam_prepare(manager, &numbers, &refusal) != TCAM_OK) numbers.writes = 0;
        if (numbers.writes == 0) break;
        unsigned long taken = allocations;
        for (uint64_t made = 0; made < writes;) made += make_due(manager, registers, old, &new) != TCAM_DRAIN;
        CHECK(tcam_next(manager, &write) == TCAM_OK);
        if (write.kind == TCAM_DRAIN && below(&draws, 2)) make_due(manager, registers, old, &new);
        turn_round(manager, registers, old, &new, &before, writes);
        CHECK(allocations == taken);
        turned++;
    }
    CHECK(tcam_clear(manager) == TCAM_OK);
}

static void commits_at_random(enum tcam_mode mode, enum tcam_placement placement) {
    static struct registers registers;
    static struct list old, new;
    struct tcam_manager manager = TCAM_MANAGER_NONE;
    unsigned taken = 0, refused = 0;
    memset(&registers, 0, sizeof registers);
    memset(&old, 0, sizeof old);
    drains = turned = moved = 0;
    CHECK(tcam_new(&manager, SLOTS, mode, placement) == TCAM_OK);
    for (int commit = 0; commit < 150; commit++) {
        struct tcam_numbers numbers;
        struct tcam_refusal refusal;
        uint32_t longest;
        new = old;
        CHECK(tcam_longest_chain(&manager, &longest) == TCAM_OK && longest == list_longest_chain(&old));
        if (commit % 5 == 0) take_back(&manager, &registers, &old, draws.seed);
        change(&manager, &new);
        enum tcam_error error = tcam_prepare(&manager, &numbers, &refusal);
        if (error == TCAM_OK) {
            unsigned long before = allocations;
            CHECK(carry_out(&manager, &registers, &old, &new, &new) == numbers.writes);
            CHECK(allocations == before);
            old = new;
            taken++;
        } else {
            CHECK(error == TCAM_SLOTS || error == TCAM_BITS);
            CHECK(refusal.need > refusal.free);
            CHECK(tcam_clear(&manager) == TCAM_OK);
            compare(&manager, &registers, &old, &old);
            refused++;
        }
    }
    CHECK(tcam_free(&manager) == TCAM_OK);
    CHECK((drains > 0) == (mode == TCAM_BY_BITS) && moved > 0);
    printf("mode %d placement %d: %u commits taken, %u refused, %u taken back, %u drains, %u moves\n", mode, placement,
           taken, refused, turned, drains, moved);
}

/* Two commits, of entries or by parts, with each allocation failing in turn: want of memory is told, and then the same
 * call does what it would have done. Answers how many allocations there are. */
static unsigned long wants_memory(bool split, unsigned long nth) {
    struct tcam_manager manager = TCAM_MANAGER_NONE;
    struct tcam_numbers numbers;
    struct tcam_refusal refusal;
    enum tcam_error error;
    allocations = 0;
    failing = nth;
    while ((error = (split ? tcam_new_split : tcam_new)(&manager, 8, TCAM_BY_BITS, TCAM_MIDDLE)) != TCAM_OK)
        CHECK(error == TCAM_MEMORY);
    for (uint32_t i = 0; i < 2; i++) {
        while ((error = tcam_add_route(&manager, i << 24, 8, i)) != TCAM_OK) CHECK(error == TCAM_MEMORY);
        while ((error = tcam_prepare(&manager, &numbers, &refusal)) != TCAM_OK) CHECK(error == TCAM_MEMORY);
        unsigned long taken = allocations;
        CHECK(numbers.writes == (split ? 2 : 1) && tcam_made(&manager) == TCAM_OK);
        CHECK(!split || tcam_made(&manager) == TCAM_OK);
        CHECK(tcam_made(&manager) == TCAM_NOTHING_DUE && allocations == taken);
    }
    uint32_t longest = 77;
    while ((error = tcam_longest_chain(&manager, &longest)) != TCAM_OK) CHECK(error == TCAM_MEMORY && longest == 77);
    CHECK(longest == 1 && tcam_free(&manager) == TCAM_OK);
    failing = 0;
    return allocations;
}

int main(void) {
    wrong_uses();
    for (int mode = TCAM_COVER; mode <= TCAM_BY_BITS; mode++)
        for (int placement = TCAM_MIDDLE; placement <= TCAM_ENDS; placement++)
            commits_at_random((enum tcam_mode)mode, (enum tcam_placement)placement);
    for (int split = 0; split < 2; split++) {
        unsigned long nth = 1;
        while (wants_memory(split, nth) >= nth) nth++;
        printf("allocations that failed in turn: %lu\n", nth - 1);
    }
    return 0;
}
