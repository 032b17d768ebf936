/* Restarts: a driver in a process of its own makes a random commit over registers that outlive it, and is killed before
 * or behind each of its writes and at each drain. Another manager is told what a file and the registers hold, and goes
 * on: between any two of its writes each packet gets the answer of the old list or that of the new one, and behind the
 * last one that of the new one. Then the registers are changed by hand in each way that makes a fault: the code, the kind
 * and the place say which, and once the registers are as they were the restart goes on. */
#define _DEFAULT_SOURCE /* fork, and memory that two processes have */

#include "lists.h"
#include "registers.h"
#include "tries.h"

#include <signal.h>
#include <string.h>
#include <sys/mman.h>
#include <sys/wait.h>
#include <unistd.h>

/* What a driver keeps in a file: what it gave to tcam_new, the list as the manager tells it, the port ranges of the bits,
 * and the list that the batch leads to, of which it makes the batch again. */
struct saved {
    enum tcam_mode mode;
    enum tcam_placement placement;
    uint32_t rules;
    struct tcam_stored stored[NUMBERS];
    struct {
        bool there;
        uint16_t first, last;
    } ranges[2][16];
    struct list old, new;
};

static struct draws draws = {51};
static unsigned stops, left_over, refusals;

static bool same_rule(const struct tcam_rule *a, const struct tcam_rule *b) {
    return a->number == b->number && a->source == b->source && a->destination == b->destination &&
           a->source_length == b->source_length && a->destination_length == b->destination_length &&
           a->protocol == b->protocol && a->source_port_first == b->source_port_first &&
           a->source_port_last == b->source_port_last && a->destination_port_first == b->destination_port_first &&
           a->destination_port_last == b->destination_port_last;
}

/* Puts the changes that lead from a list to another into the batch. */
static void put_batch(struct tcam_manager *manager, const struct list *old, const struct list *new) {
    for (int i = 0; i < NUMBERS; i++) {
        bool stays = old->there[i] && new->there[i] && same_rule(&old->rules[i], &new->rules[i]);
        if (stays && old->rules[i].result != new->rules[i].result)
            CHECK(tcam_set_rule(manager, (uint32_t)i + 1, new->rules[i].result) == TCAM_OK);
        if (!stays && old->there[i]) CHECK(tcam_del_rule(manager, (uint32_t)i + 1) == TCAM_OK);
        if (!stays && new->there[i]) CHECK(tcam_add_rule(manager, &new->rules[i]) == TCAM_OK);
    }
}

static void save(struct tcam_manager *manager, struct saved *saved) {
    uint32_t cursor = 0;
    while (tcam_rules(manager, &cursor, &saved->stored[cursor < NUMBERS ? cursor : 0]) == TCAM_OK) continue;
    saved->rules = cursor;
    for (int field = 0; field < 2; field++)
        for (uint8_t bit = 0; bit < 16; bit++) {
            enum tcam_error answer = tcam_ranges(manager, (enum tcam_field)field, bit, &saved->ranges[field][bit].first,
                                                 &saved->ranges[field][bit].last);
            CHECK(answer == TCAM_OK || answer == TCAM_NO_RANGE);
            saved->ranges[field][bit].there = answer == TCAM_OK;
        }
}

/* Makes a write, without a failure. */
static void put(struct registers *registers, const struct tcam_write *write) {
    registers->calls = 0;
    CHECK(registers_put(registers, write));
}

/* Makes all that is due. The process is killed at the stop, if there is one, counted twice a write: before it is made and
 * behind it, and once a drain. Answers the count. */
static unsigned carry_out(struct tcam_manager *manager, struct registers *registers, unsigned stop) {
    struct tcam_write write;
    unsigned count = 0;
    while (tcam_next(manager, &write) == TCAM_OK && write.kind != TCAM_NOTHING) {
        if (++count == stop) raise(SIGKILL);
        if (write.kind == TCAM_DRAIN) {
            CHECK(tcam_drained(manager) == TCAM_OK);
            continue;
        }
        put(registers, &write);
        if (++count == stop) raise(SIGKILL);
        CHECK(tcam_made(manager) == TCAM_OK);
    }
    return count;
}

/* What a process does until it is killed, or to the end of the commit with a stop of 0, which it then tells by its
 * status: a list is loaded, what a restart needs is saved, and the next list is committed. */
static unsigned drive(struct registers *registers, FILE *file, unsigned stop) {
    struct tcam_manager manager = TCAM_MANAGER_NONE;
    struct tcam_numbers numbers;
    struct tcam_refusal refusal;
    struct saved saved;
    static const struct list none;
    rewind(file);
    CHECK(fread(&saved, sizeof saved, 1, file) == 1);
    CHECK(tcam_new(&manager, SLOTS, saved.mode, saved.placement) == TCAM_OK);
    put_batch(&manager, &none, &saved.old);
    CHECK(tcam_prepare(&manager, &numbers, &refusal) == TCAM_OK);
    carry_out(&manager, registers, 0);
    save(&manager, &saved);
    rewind(file);
    CHECK(fwrite(&saved, sizeof saved, 1, file) == 1 && fflush(file) == 0);
    put_batch(&manager, &saved.old, &saved.new);
    CHECK(tcam_prepare(&manager, &numbers, &refusal) == TCAM_OK);
    unsigned count = carry_out(&manager, registers, stop);
    CHECK(tcam_free(&manager) == TCAM_OK);
    return count;
}

/* Tells a manager all that the file and the registers have. */
static void tell(struct tcam_manager *manager, const struct saved *saved, const struct registers *registers) {
    CHECK(tcam_restart_begin(manager) == TCAM_OK);
    for (uint32_t i = 0; i < saved->rules; i++) CHECK(tcam_restart_rule(manager, &saved->stored[i]) == TCAM_OK);
    for (uint32_t i = 0; i < SLOTS; i++) {
        const struct slot *slot = &registers->slots[i];
        struct tcam_write entry = {.kind = TCAM_PUT, .slot = i, .tag = slot->tag, .result = slot->result};
        memcpy(entry.value, slot->value, sizeof entry.value);
        memcpy(entry.mask, slot->mask, sizeof entry.mask);
        if (slot->used) CHECK(tcam_restart_slot(manager, &entry) == TCAM_OK);
    }
    for (int field = 0; field < 2; field++) {
        for (uint8_t bit = 16; bit-- > 0;)
            if (saved->ranges[field][bit].there)
                CHECK(tcam_restart_range(manager, (enum tcam_field)field, bit, saved->ranges[field][bit].first,
                                         saved->ranges[field][bit].last) == TCAM_OK);
        for (uint32_t port = 0; port < PORTS; port++)
            if (registers->tables[field][port] != 0)
                CHECK(tcam_restart_word(manager, (enum tcam_field)field, (uint16_t)port, registers->tables[field][port]) ==
                      TCAM_OK);
    }
}

/* Each packet gets the answer of the old list or that of the new one, of the registers and of the library. */
static void compare(struct tcam_manager *manager, const struct registers *registers, const struct list *old,
                    const struct list *new) {
    for (int i = 0; i < 30; i++) {
        struct tcam_key key = key_at_random(&draws);
        struct tcam_answer answer;
        int64_t was = list_answer(old, &key), is = list_answer(new, &key), got = registers_answer(registers, &key);
        CHECK(got == was || got == is);
        CHECK(tcam_answer(manager, &key, &answer) == TCAM_OK);
        CHECK((answer.found ? (int64_t)answer.result : -1) == got);
    }
}

/* Goes on with the commit, to its end or up to so many writes. */
static void go_on(struct tcam_manager *manager, struct registers *registers, const struct saved *saved, uint64_t most) {
    struct tcam_refusal refusal;
    struct tcam_restart_fault fault;
    struct tcam_write write;
    uint64_t left = 0, undo = 77, made = 0;
    tell(manager, saved, registers);
    put_batch(manager, &saved->old, &saved->new);
    CHECK(tcam_restart(manager, &left, &refusal, &fault) == TCAM_OK);
    CHECK(tcam_restart(manager, &left, &refusal, &fault) == TCAM_NO_RESTART);
    left_over += left > 0;
    while (tcam_next(manager, &write) == TCAM_OK && write.kind != TCAM_NOTHING) {
        CHECK(list_is_told(&saved->old, manager));
        CHECK(tcam_abort(manager, &undo) == TCAM_RESTARTED && undo == 77);
        if (made == most) return;
        compare(manager, registers, &saved->old, &saved->new);
        if (write.kind == TCAM_DRAIN) {
            CHECK(tcam_drained(manager) == TCAM_OK);
            continue;
        }
        put(registers, &write);
        CHECK(tcam_made(manager) == TCAM_OK);
        made++;
    }
    CHECK(made == left && list_is_told(&saved->new, manager));
    compare(manager, registers, &saved->new, &saved->new);
}

/* Another commit of a manager that was restarted: it takes all out. */
static void empty(struct tcam_manager *manager, struct registers *registers, const struct list *list) {
    static const struct list none;
    struct tcam_numbers numbers;
    struct tcam_refusal refusal;
    put_batch(manager, list, &none);
    CHECK(tcam_prepare(manager, &numbers, &refusal) == TCAM_OK);
    carry_out(manager, registers, 0);
    for (int slot = 0; slot < SLOTS; slot++) CHECK(!registers->slots[slot].used);
}

static void draw_lists(struct saved *saved) {
    memset(saved, 0, sizeof *saved);
    for (uint32_t i = 0; i < NUMBERS; i++) {
        saved->old.there[i] = below(&draws, 3) == 0;
        saved->old.rules[i] = rule_at_random(&draws, i + 1, 5);
        saved->new.there[i] = below(&draws, 4) == 0 ? below(&draws, 2) == 0 : saved->old.there[i];
        saved->new.rules[i] = below(&draws, 6) == 0 ? rule_at_random(&draws, i + 1, 5) : saved->old.rules[i];
        if (below(&draws, 5) == 0) saved->new.rules[i].result = 7;
    }
}

/* Whether a manager would take both lists. */
static bool fits(const struct saved *saved) {
    static const struct list none;
    struct tcam_manager manager = TCAM_MANAGER_NONE;
    struct tcam_numbers numbers;
    struct tcam_refusal refusal;
    static struct registers registers;
    CHECK(tcam_new(&manager, SLOTS, saved->mode, saved->placement) == TCAM_OK);
    put_batch(&manager, &none, &saved->old);
    bool fits = tcam_prepare(&manager, &numbers, &refusal) == TCAM_OK;
    if (fits) {
        carry_out(&manager, &registers, 0);
        put_batch(&manager, &saved->old, &saved->new);
        fits = tcam_prepare(&manager, &numbers, &refusal) == TCAM_OK && numbers.writes > 0;
    }
    CHECK(tcam_free(&manager) == TCAM_OK);
    return fits;
}

/* Has a process drive the registers, until it is killed at the stop. Answers whether it was. */
static bool killed(struct registers *registers, FILE *file, unsigned stop) {
    memset(registers, 0, sizeof *registers);
    fflush(NULL);
    pid_t child = fork();
    CHECK(child >= 0);
    if (child == 0) {
        drive(registers, file, stop);
        _exit(0);
    }
    int status;
    CHECK(waitpid(child, &status, 0) == child);
    CHECK(WIFSIGNALED(status) ? WTERMSIG(status) == SIGKILL : WIFEXITED(status) && WEXITSTATUS(status) == 0);
    return WIFSIGNALED(status);
}

/* A file that a driver begins with. */
static FILE *begin(const struct saved *saved) {
    FILE *file = tmpfile();
    CHECK(file && fwrite(saved, sizeof *saved, 1, file) == 1 && fflush(file) == 0);
    return file;
}

static void read_back(FILE *file, struct saved *saved) {
    rewind(file);
    CHECK(fread(saved, sizeof *saved, 1, file) == 1);
}

/* A commit that is killed at each moment. */
static void stop_everywhere(struct registers *registers, enum tcam_mode mode, enum tcam_placement placement) {
    struct saved saved;
    do {
        draw_lists(&saved);
        saved.mode = mode;
        saved.placement = placement;
    } while (!fits(&saved));
    bool was_killed = true;
    for (unsigned stop = 1; was_killed; stop++) {
        struct tcam_manager manager = TCAM_MANAGER_NONE;
        FILE *file = begin(&saved);
        struct saved kept;
        was_killed = killed(registers, file, stop);
        read_back(file, &kept);
        CHECK(tcam_new(&manager, SLOTS, kept.mode, kept.placement) == TCAM_OK);
        go_on(&manager, registers, &kept, below(&draws, 4)); /* which is given up in the midst of it, often */
        CHECK(tcam_free(&manager) == TCAM_OK);
        CHECK(tcam_new(&manager, SLOTS, kept.mode, kept.placement) == TCAM_OK);
        go_on(&manager, registers, &kept, UINT64_MAX);
        empty(&manager, registers, &kept.new);
        CHECK(tcam_free(&manager) == TCAM_OK);
        fclose(file);
        stops += was_killed;
    }
}

/* --- faults, each by a register or a saved range that is changed by hand */

static struct registers good;

/* The restart is refused by this fault; once the registers are as they were it goes on. */
static void refused(struct registers *registers, const struct saved *told, const struct saved *saved, uint32_t kind,
                    uint32_t slot, uint32_t field, uint32_t port, struct tcam_tag tag) {
    struct tcam_manager manager = TCAM_MANAGER_NONE;
    struct tcam_refusal refusal;
    struct tcam_restart_fault fault = {77, 77, 77, 77, {7, 7, 7}};
    uint64_t left = 77;
    CHECK(tcam_new(&manager, SLOTS, saved->mode, saved->placement) == TCAM_OK);
    tell(&manager, told, registers);
    put_batch(&manager, &saved->old, &saved->old);
    CHECK(tcam_restart(&manager, &left, &refusal, &fault) == TCAM_STAGE && left == 77);
    CHECK(fault.kind == kind && fault.slot == slot && fault.field == field && fault.port == port && same_tag(fault.tag, tag));
    CHECK(tcam_restart(&manager, &left, &refusal, &fault) == TCAM_STAGE && fault.kind == kind);
    memcpy(registers, &good, sizeof good);
    go_on(&manager, registers, saved, UINT64_MAX);
    CHECK(tcam_free(&manager) == TCAM_OK);
    memcpy(registers, &good, sizeof good);
    refusals++;
}

/* Three rules that overlap, of which the first has two ports: a bit, or two entries. */
static void make_faults(struct registers *registers, enum tcam_mode mode) {
    static const struct tcam_tag none;
    struct saved saved, told;
    memset(&saved, 0, sizeof saved);
    saved.mode = mode;
    saved.placement = TCAM_MIDDLE;
    for (uint32_t i = 0; i < 3; i++) {
        saved.old.there[i] = true;
        saved.old.rules[i] = (struct tcam_rule){.number = i + 1, .protocol = TCAM_ANY_PROTOCOL, .source_port_last = 65535,
            .destination_port_last = 65535, .result = i};
        if (i < 2) saved.old.rules[i].destination = 0x0a000000, saved.old.rules[i].destination_length = 8;
    }
    saved.old.rules[0].destination_port_first = 1;
    saved.old.rules[0].destination_port_last = 2;
    saved.new = saved.old;
    FILE *file = begin(&saved);
    CHECK(!killed(registers, file, 0));
    read_back(file, &saved);
    fclose(file);
    memcpy(&good, registers, sizeof good);
    uint32_t used[SLOTS], count = 0;
    for (uint32_t slot = 0; slot < SLOTS; slot++)
        if (registers->slots[slot].used) used[count++] = slot;
    CHECK(count >= 3 && used[count - 1] + 2 < SLOTS);
    uint32_t second = used[count - 2], last = used[count - 1], past = last + 1;

    registers->slots[past] = registers->slots[second];
    registers->slots[past].value[4] ^= 0x01000000; /* an entry of another network */
    refused(registers, &saved, &saved, TCAM_FOREIGN, past, 0, 0, none);

    registers->slots[second] = good.slots[last];
    registers->slots[last] = good.slots[second];
    refused(registers, &saved, &saved, TCAM_CROSSED, last, 0, 0, none);

    registers->slots[past] = registers->slots[past + 1] = registers->slots[last];
    refused(registers, &saved, &saved, TCAM_TWIN, past + 1, 0, 0, none);

    registers->slots[last].used = false;
    refused(registers, &saved, &saved, TCAM_GAP, 0, 0, 0, good.slots[last].tag);

    if (mode == TCAM_COVER) return;
    registers->tables[TCAM_DESTINATION][2] ^= 1;
    refused(registers, &saved, &saved, TCAM_WRONG_WORD, 0, TCAM_DESTINATION, 2, none);

    told = saved;
    CHECK(told.ranges[TCAM_DESTINATION][0].there);
    told.ranges[TCAM_DESTINATION][0].last += 100;
    refused(registers, &told, &saved, TCAM_BITS_DIFFER, 0, TCAM_DESTINATION, 0, none);
}

/* --- wrong uses, each with the code that answers it */

static enum tcam_error restarted(struct tcam_manager *manager) {
    struct tcam_refusal refusal;
    struct tcam_restart_fault fault;
    uint64_t left;
    return tcam_restart(manager, &left, &refusal, &fault);
}

static void tell_wrong_numbers(struct tcam_manager *manager) {
    struct tcam_stored rule = {.tag = {0, 0, 1}, .protocol = 256}, wrong;
    struct tcam_write entry = {.slot = SLOTS};
    CHECK(tcam_restart_slot(manager, &entry) == TCAM_NO_SUCH_SLOT);
    CHECK(tcam_restart_word(manager, (enum tcam_field)2, 0, 1) == TCAM_NO_BIT);
    CHECK(tcam_restart_range(manager, (enum tcam_field)2, 0, 1, 2) == TCAM_NO_BIT);
    CHECK(tcam_restart_range(manager, TCAM_SOURCE, 16, 1, 2) == TCAM_NO_BIT);
    CHECK(tcam_restart_range(manager, TCAM_SOURCE, 3, 2, 1) == TCAM_PORTS);
    CHECK(tcam_restart_range(manager, TCAM_SOURCE, 3, 2, 2) == TCAM_RANGE_TWICE);
    CHECK(tcam_restart_range(manager, TCAM_SOURCE, 3, 1, 2) == TCAM_OK);
    CHECK(tcam_restart_range(manager, TCAM_SOURCE, 3, 4, 6) == TCAM_RANGE_TWICE);
    CHECK(tcam_restart_range(manager, TCAM_SOURCE, 15, 1, 2) == TCAM_RANGE_TWICE);
    CHECK(tcam_restart_range(manager, TCAM_DESTINATION, 3, 1, 2) == TCAM_OK);
    wrong = rule, wrong.source_length = 129;
    CHECK(tcam_restart_rule(manager, &wrong) == TCAM_PREFIX_LENGTH);
    wrong = rule, wrong.destination.lower = 1;
    CHECK(tcam_restart_rule(manager, &wrong) == TCAM_HOST_BITS);
    wrong = rule, wrong.source_port_first = 1;
    CHECK(tcam_restart_rule(manager, &wrong) == TCAM_PORTS);
    wrong = rule, wrong.protocol = 257;
    CHECK(tcam_restart_rule(manager, &wrong) == TCAM_PROTOCOL);
    CHECK(tcam_restart_rule(manager, &rule) == TCAM_OK);
    CHECK(tcam_restart_rule(manager, &rule) == TCAM_TAKEN);
    for (rule.tag.low_lower = 2; rule.tag.low_lower <= SLOTS; rule.tag.low_lower++)
        CHECK(tcam_restart_rule(manager, &rule) == TCAM_OK);
    CHECK(tcam_restart_rule(manager, &rule) == TCAM_SLOTS);
}

/* No restart is begun, or it can't be. */
static void tell_too_early(struct tcam_manager *manager, enum tcam_error answer) {
    struct tcam_stored rule = {.protocol = 256};
    struct tcam_write entry = {.slot = 0};
    CHECK(tcam_restart_rule(manager, &rule) == answer && tcam_restart_slot(manager, &entry) == answer);
    CHECK(tcam_restart_range(manager, TCAM_SOURCE, 0, 1, 2) == answer);
    CHECK(tcam_restart_word(manager, TCAM_SOURCE, 0, 1) == answer);
}

static void use_wrong(void) {
    struct tcam_manager manager = TCAM_MANAGER_NONE;
    struct tcam_numbers numbers;
    struct tcam_refusal refusal;
    struct tcam_restart_fault fault;
    uint64_t left = 77;
    uint16_t first = 77, last = 77;
    static struct registers registers;
    tell_too_early(&manager, TCAM_NO_MANAGER);
    CHECK(tcam_restart_begin(&manager) == TCAM_NO_MANAGER && restarted(&manager) == TCAM_NO_MANAGER);
    CHECK(tcam_ranges(&manager, TCAM_SOURCE, 0, &first, &last) == TCAM_NO_MANAGER);
    CHECK(tcam_restart(&manager, NULL, &refusal, &fault) == TCAM_NULL && tcam_restart_slot(&manager, NULL) == TCAM_NULL);

    CHECK(tcam_new_split(&manager, SLOTS, TCAM_BY_BITS, TCAM_MIDDLE) == TCAM_OK);
    CHECK(tcam_restart_begin(&manager) == TCAM_BESIDE && restarted(&manager) == TCAM_BESIDE);
    CHECK(tcam_ranges(&manager, TCAM_SOURCE, 0, &first, &last) == TCAM_BESIDE && first == 77 && last == 77);
    tell_too_early(&manager, TCAM_NO_RESTART);
    CHECK(tcam_free(&manager) == TCAM_OK);

    CHECK(tcam_new(&manager, SLOTS, TCAM_BY_BITS, TCAM_MIDDLE) == TCAM_OK);
    CHECK(tcam_ranges(&manager, TCAM_SOURCE, 16, &first, &last) == TCAM_NO_RANGE && first == 77 && last == 77);
    tell_too_early(&manager, TCAM_NO_RESTART);
    CHECK(restarted(&manager) == TCAM_NO_RESTART && tcam_restart_begin(&manager) == TCAM_OK);
    tell_wrong_numbers(&manager);
    CHECK(tcam_restart_clear(&manager) == TCAM_OK);
    tell_too_early(&manager, TCAM_NO_RESTART);
    CHECK(tcam_restart_begin(&manager) == TCAM_OK);
    CHECK(tcam_del_rule(&manager, 4) == TCAM_OK);
    CHECK(tcam_restart(&manager, &left, &refusal, &fault) == TCAM_ABSENT && left == 77);
    CHECK(tcam_rule_number(refusal.tag) == 4 && tcam_clear(&manager) == TCAM_OK);
    CHECK(tcam_add_route(&manager, 0x0a000000, 8, 7) == TCAM_OK);
    CHECK(tcam_prepare(&manager, &numbers, &refusal) == TCAM_OK);
    CHECK(restarted(&manager) == TCAM_USED && tcam_restart_begin(&manager) == TCAM_USED);
    carry_out(&manager, &registers, 0);
    CHECK(restarted(&manager) == TCAM_USED && tcam_restart_begin(&manager) == TCAM_USED);
    CHECK(tcam_free(&manager) == TCAM_OK);

    CHECK(tcam_new(&manager, SLOTS, TCAM_COVER, TCAM_MIDDLE) == TCAM_OK && tcam_restart_begin(&manager) == TCAM_OK);
    CHECK(tcam_restart_word(&manager, TCAM_SOURCE, 0, 1) == TCAM_NO_BIT);
    CHECK(tcam_restart_range(&manager, TCAM_SOURCE, 0, 1, 2) == TCAM_NO_BIT);
    CHECK(tcam_restart(&manager, &left, &refusal, &fault) == TCAM_OK && left == 0);
    CHECK(tcam_free(&manager) == TCAM_OK);
}

int main(void) {
    use_wrong();
    struct registers *registers = mmap(NULL, sizeof *registers, PROT_READ | PROT_WRITE, MAP_SHARED | MAP_ANONYMOUS, -1, 0);
    CHECK(registers != MAP_FAILED);
    for (int mode = TCAM_COVER; mode <= TCAM_BY_BITS; mode++) {
        for (int placement = TCAM_MIDDLE; placement <= TCAM_ENDS; placement++)
            stop_everywhere(registers, (enum tcam_mode)mode, (enum tcam_placement)placement);
        make_faults(registers, (enum tcam_mode)mode);
    }
    CHECK(stops > 60 && left_over > 20 && refusals == 10);
    return 0;
}
