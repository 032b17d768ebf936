/* Carries random commits of access lists out over a chain of the kernel's packet filter, and sends packets between every two
 * writes: each is sent or refused as the old list or the new one says. Some commits are taken back halfway first. Then the
 * same commits are made with the order of their writes turned round, as a control: there must be packets with an answer
 * that neither list gives, else these packets show nothing. The whole runs in a network namespace of its own. */
#include "lists.h"
#include "packets.h"

#include <stdio.h>
#include <stdlib.h>

#define CHECK(holds) \
    do { \
        if (!(holds)) { \
            fprintf(stderr, "%s:%d: %s\n", __FILE__, __LINE__, #holds); \
            exit(1); \
        } \
    } while (0)

#define COMMITS 30
#define PACKETS 12 /* between two writes */

static struct draws draws;

struct tally {
    unsigned commits, back, writes, packets, wrong;
};

/* What a list wants with a packet: one that no rule matches is refused. */
static int wanted(const struct list *list, const struct tcam_key *key) {
    return list_answer(list, key) == SENT ? SENT : REFUSED;
}

static void look_up(const struct list *old, const struct list *new, struct tally *tally) {
    for (int i = 0; i < PACKETS; i++) {
        struct tcam_key key = key_at_random(&draws);
        int answer = packets_answer(&key);
        CHECK(answer == SENT || answer == REFUSED);
        tally->packets++;
        tally->wrong += answer != wanted(old, &key) && answer != wanted(new, &key);
    }
}

static void put(const struct tcam_write *write, struct tally *tally) {
    CHECK(chain_put(write));
    tally->writes++;
}

/* Makes the writes that are due, at most so many, with packets behind each. */
static void make_writes(struct tcam_manager *manager, const struct list *old, const struct list *new, uint64_t most,
                        struct tally *tally) {
    struct tcam_write write;
    for (uint64_t made = 0; made < most; made++) {
        CHECK(tcam_next(manager, &write) == TCAM_OK);
        if (write.kind == TCAM_NOTHING) break;
        put(&write, tally);
        CHECK(tcam_made(manager) == TCAM_OK);
        look_up(old, new, tally);
    }
}

/* Carries a commit out, and half of it back first where that is asked. */
static void carry_out(struct tcam_manager *manager, const struct list *old, const struct list *new, uint64_t writes,
                      bool takes_back, struct tally *tally) {
    uint64_t left;
    look_up(old, new, tally);
    if (takes_back) {
        make_writes(manager, old, new, writes / 2, tally);
        CHECK(tcam_abort(manager, &left) == TCAM_OK && left == writes / 2);
        tally->back++;
    }
    make_writes(manager, old, new, UINT64_MAX, tally);
    look_up(takes_back ? old : new, takes_back ? old : new, tally);
}

/* The control: the writes are told as made before any is, and then made from the last one to the first. Behind them those
 * slots that were written more than once get what they were to have. */
static void carry_out_backwards(struct tcam_manager *manager, const struct list *old, const struct list *new,
                                uint64_t writes, struct tally *tally) {
    struct tcam_write *due = calloc(writes + 1, sizeof *due);
    CHECK(due);
    for (uint64_t i = 0; i < writes; i++) CHECK(tcam_next(manager, &due[i]) == TCAM_OK && tcam_made(manager) == TCAM_OK);
    look_up(old, new, tally);
    for (uint64_t i = writes; i > 0; i--) {
        put(&due[i - 1], tally);
        look_up(old, new, tally);
    }
    for (uint64_t i = 0; i < writes; i++) {
        bool again = false, last = true;
        for (uint64_t other = 0; other < writes; other++) {
            if (due[other].slot != due[i].slot) continue;
            again = again || other < i;
            last = last && other <= i;
        }
        if (again && last) CHECK(chain_put(&due[i]));
    }
    free(due);
}

/* A rule comes, goes, gets the other result, or gives way to one with other ports or to any other. */
static void change_rule(struct tcam_manager *manager, struct list *list, uint32_t at) {
    enum { GOES, TURNS, OTHER_PORTS, OTHER };
    struct tcam_rule *rule = &list->rules[at], other = rule_at_random(&draws, 1 + at, 2);
    uint32_t change = list->there[at] ? below(&draws, 4) : OTHER;
    if (below(&draws, 2)) other.destination_port_first = 0, other.destination_port_last = 65535;
    if (change == TURNS) {
        rule->result = rule->result == SENT ? REFUSED : SENT;
        CHECK(tcam_set_rule(manager, rule->number, rule->result) == TCAM_OK);
        return;
    }
    if (list->there[at]) CHECK(tcam_del_rule(manager, rule->number) == TCAM_OK);
    list->there[at] = change != GOES;
    if (change == OTHER) *rule = other;
    rule->destination_port_first = other.destination_port_first;
    rule->destination_port_last = other.destination_port_last;
    if (change != GOES) CHECK(tcam_add_rule(manager, rule) == TCAM_OK);
}

/* Some changes at random, in the batch and in a list. */
static void change(struct tcam_manager *manager, struct list *list) {
    bool named[NUMBERS] = {false};
    for (uint32_t changes = 1 + below(&draws, 8); changes > 0; changes--) {
        uint32_t at = below(&draws, NUMBERS);
        if (!named[at]) change_rule(manager, list, at);
        named[at] = true;
    }
}

/* One commit, which leaves the list as it was where it is refused or taken back. */
static void commit(struct tcam_manager *manager, struct list *list, uint32_t seed, bool backwards, bool takes_back,
                   struct tally *tally) {
    struct list new = *list;
    struct tcam_numbers numbers;
    struct tcam_refusal refusal;
    draws.seed = seed * 2654435761u;
    change(manager, &new);
    enum tcam_error error = tcam_prepare(manager, &numbers, &refusal);
    if (error != TCAM_OK) {
        CHECK(error == TCAM_SLOTS && tcam_clear(manager) == TCAM_OK);
        return;
    }
    if (backwards)
        carry_out_backwards(manager, list, &new, numbers.writes, tally);
    else
        carry_out(manager, list, &new, numbers.writes, takes_back && numbers.writes > 1, tally);
    if (takes_back && numbers.writes > 1) return;
    tally->commits++;
    *list = new;
}

static struct tally run(enum tcam_placement placement, bool backwards) {
    static const char *const names[] = {"middle", "rank", "ends"};
    struct tcam_manager manager = TCAM_MANAGER_NONE;
    struct list list = {.there = {false}};
    struct tally tally = {0};
    CHECK(chain_make() && tcam_new(&manager, SLOTS, TCAM_COVER, placement) == TCAM_OK);
    for (uint32_t seed = 1; tally.commits < COMMITS; seed++) {
        if (!backwards && seed % 5 == 0) commit(&manager, &list, seed, false, true, &tally);
        commit(&manager, &list, seed, backwards, false, &tally);
    }
    CHECK(chain_is_whole() && tcam_free(&manager) == TCAM_OK && chain_drop());
    printf("%s, placement %s: %u commits, %u taken back first, %u writes, %u packets, %u wrong\n",
           backwards ? "turned round" : "in order", names[placement], tally.commits, tally.back, tally.writes, tally.packets,
           tally.wrong);
    fflush(stdout);
    return tally;
}

/* The status says that nothing was tried. */
static int leave(const char *why) {
    fprintf(stderr, "%s\n", why);
    return 77;
}

int main(void) {
    if (!chain_open()) return leave("no libnftables");
    if (!packets_ready()) return leave("no leave to send packets");
    if (!chain_make() || !chain_drop()) return leave("no packet filter in the kernel");
    for (int placement = TCAM_MIDDLE; placement <= TCAM_ENDS; placement++) {
        CHECK(run((enum tcam_placement)placement, false).wrong == 0);
        CHECK(run((enum tcam_placement)placement, true).wrong > 0);
    }
    return 0;
}
