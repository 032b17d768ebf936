/* The table manager of a TCAM for drivers in C. docs/C.md says what is proved of it, and what the C side owes.
 *
 * Who does what: the memory is the caller's. Changes to the rules join a pending batch; tcam_prepare has it judged
 * and plans every write of its commit; then the caller asks tcam_next which write is due, makes it, and says so by
 * tcam_made, until nothing is due. A write that fails is asked for again: tcam_next tells the same one until
 * tcam_made comes, and it may be made twice. A commit by TCAM_BY_BITS that brings new port ranges drains once, behind
 * the words of the tables: tcam_next tells TCAM_DRAIN, the caller waits until no look-up whose search word was made
 * before is still to be searched, and says so by tcam_drained. Where a look-up makes its word and searches the slots
 * in one, there is nothing to wait for. Packets may be looked up between any two calls: before the first write and
 * after each of them, also where the write that is due was made and not told yet, each packet gets the answer of the
 * old rules or that of the new ones, and after the last tcam_made that of the new ones. A commit that is stuck, or
 * not wanted any more, is turned round by tcam_abort: then the writes that undo it are due in the same way, and after
 * the last of them each packet gets the answer of the old rules.
 *
 * Some memories have their results beside the slots, in a memory of their own: a search finds the least slot that
 * hits, and the slot's result word is read later. For one of these the manager is made by tcam_new_split, and all
 * else stays as it is. What is due are the parts of a write then: TCAM_RESULT, a slot's result word; TCAM_PUT, its
 * value and mask alone; TCAM_ERASE, which leaves the result word; and TCAM_WORD. A TCAM_DRAIN comes in either mode,
 * wherever a result word must not change under a look-up that may have found its slot for another entry: the caller
 * waits until no look-up that has begun is still to be searched or to read its result word. Between any two calls a
 * look-up may be searched, and read between any two later ones: it gets what a look-up that is made whole would at
 * some moment between its search and its read, the answer of the rules that were the old ones or the new ones then. A
 * commit by parts isn't turned round: tcam_abort drops it before its first part, and answers TCAM_BEGUN behind that.
 *
 * Every function of a manager answers a code: TCAM_NULL where a pointer is null, and else TCAM_NO_MANAGER where the
 * handle has none, but for tcam_new and tcam_new_split. With any code but TCAM_OK all is as it was before the call,
 * and nothing was written through a pointer, but what tcam_prepare and tcam_prepare_all tell of a refusal,
 * tcam_restart of a refusal or a fault, and tcam_abort with TCAM_BACK. After any code any call may come.
 *
 * No call locks, waits, prints, calls back, or keeps a pointer that it is given. tcam_new and tcam_new_split, the
 * functions that put a change into the batch, tcam_prepare, tcam_prepare_all, tcam_longest_chain, and those of a
 * restart take memory by malloc, realloc and free, and say so by TCAM_MEMORY where it is wanting. No call takes
 * memory between a tcam_prepare and the last tcam_made of its commit, but tcam_longest_chain and those that put
 * changes into the next batch: so a commit that is under way can't fail for memory, nor can want of it keep one of
 * whole entries from being taken back. The last tcam_made gives back what the commit took, or a tcam_abort with
 * nothing to undo; the room for words of tables stays (docs/C.md, "What a manager takes").
 *
 * Addresses, ports and protocols are numbers as the processor has them: 10.0.0.0 is 0x0a000000. A result is any
 * number, and a look-up answers it: an output port, a next hop, permit or deny. Routes and rules of an access list
 * may stand in one memory: each route but the one of length 0 goes before every rule, and that one behind them all.
 *
 * A manager takes rules and packets of IPv4 and, by the functions whose names end in 6, of IPv6. Its memory has no
 * bit for the version: an address of IPv4 is that of IPv6 which has it in its upper 32 bits, and 0 below. So a packet
 * of one version meets a rule of the other where its address, taken so, is in the rule's prefixes, as any packet
 * meets the route of length 0. Where addresses don't keep the versions apart, each has a memory of its own.
 *
 * A memory may outlive the program. A driver that is to be restarted saves, where it outlives the program too, what it
 * gave to tcam_new, the rules and the port ranges that bits stand for, as tcam_rules and tcam_ranges tell them between
 * two commits, and before each tcam_prepare the changes of its batch. After a stop, at any moment, it makes a manager
 * with the same numbers, and tells it by tcam_restart_begin and the tcam_restart_ functions behind it the rules, the
 * ranges, each slot that isn't empty and each word that isn't 0; it puts the changes of the batch in again, none where
 * no commit was begun, and calls tcam_restart. Then what is left of the commit is due, as ever, and packets may be
 * looked up all along. Such a commit isn't turned round. With results beside the slots no restart is there.
 *
 * What the C side keeps, and nothing here can test:
 *  - A struct tcam_manager is set by TCAM_MANAGER_NONE (all zeros) before the first call, and after that changed by
 *    these functions alone. It may be moved, but there is one copy that is used: a copy that was taken before a
 *    tcam_free isn't.
 *  - A pointer points to one struct of its type, and two pointers of one call to two different ones.
 *  - One manager is in one call at a time. Managers have nothing in common, so two threads may have one each, and
 *    hand one over by a lock, or by a start or join of a thread. No call comes from a signal handler, or in a forked
 *    child of a process with threads.
 *  - malloc, realloc and free come from one allocator, and a block is aligned to 16 bytes.
 *  - The memory is blank when tcam_new or tcam_new_split is called: each slot empty, and each word of both tables 0.
 *    Nobody else writes it. Behind tcam_restart it holds what was told of it, no more and no less, and no look-up
 *    whose word was made before the stop is still to be searched.
 *  - tcam_made comes where the write that tcam_next told was made, whole, behind those before it; and tcam_drained
 *    where no look-up is left that made its search word before, and has not been searched, nor one, with results
 *    beside the slots, that has not read its result word. */
#ifndef TCAM_H
#define TCAM_H

#include <stdbool.h>
#include <stddef.h>
#include <stdint.h>

#ifdef __cplusplus
extern "C" {
#endif

/* The version of this header, and as one number as tcam_version tells it. */
#define TCAM_VERSION_MAJOR 0
#define TCAM_VERSION_MINOR 2
#define TCAM_VERSION_PATCH 0
#define TCAM_VERSION (TCAM_VERSION_MAJOR << 16 | TCAM_VERSION_MINOR << 8 | TCAM_VERSION_PATCH)

/* The number that the shared library has in its name. It changes where a struct that stands does, or a function, so
 * that a program finds no library which was made with another layout than it was compiled with. */
#define TCAM_ABI 1

/* What a function answers. */
enum tcam_error {
    TCAM_OK = 0,
    TCAM_NO_MANAGER = 1,    /* the handle is zeroed, or its manager was freed */
    TCAM_MADE_ALREADY = 2,  /* the handle has a manager */
    TCAM_SLOTS_RANGE = 3,   /* 1 to 1,048,576 slots */
    TCAM_NO_MODE = 4,       /* none of enum tcam_mode */
    TCAM_NO_PLACEMENT = 5,  /* none of enum tcam_placement */
    TCAM_PREFIX_LENGTH = 6, /* a prefix longer than 32 bits, or than 128 of IPv6 */
    TCAM_HOST_BITS = 7,     /* a bit of the address past the length is set */
    TCAM_PORTS = 8,         /* a range ends before it begins */
    TCAM_PROTOCOL = 9,      /* past TCAM_ANY_PROTOCOL */
    TCAM_BATCH_FULL = 10,   /* the batch has 4,096 changes */
    TCAM_MEMORY = 11,       /* want of memory */
    TCAM_BUSY = 12,         /* a commit is under way */
    TCAM_TWICE = 13,        /* an earlier change of the batch names the rule */
    TCAM_TAKEN = 14,        /* a rule that is to be added is there */
    TCAM_ABSENT = 15,       /* a rule that is to be changed or removed isn't there */
    TCAM_BITS = 16,         /* too few bits of a field are free for the new port ranges */
    TCAM_SLOTS = 17,        /* too few slots are free */
    TCAM_NOTHING_DUE = 18,  /* no commit is under way */
    TCAM_NULL = 19,         /* a pointer is null */
    TCAM_DRAIN_DUE = 20,    /* a drain is due, and no write */
    TCAM_WRITE_DUE = 21,    /* a write is due, and no drain */
    TCAM_BACK = 22,         /* the commit is turned round already */
    TCAM_RESTARTED = 23,    /* a restart goes on with the commit: it can't be taken back */
    TCAM_BEGUN = 24,        /* the commit is made by parts and has begun: it can't be taken back */
    TCAM_NUMBER = 25,       /* a rule of an access list has number 0: they are 1 to 4,294,967,295 */
    TCAM_NO_RULE = 26,      /* there is no rule at the cursor */
    TCAM_NO_RANGE = 27,     /* no port range has the bit */
    TCAM_BESIDE = 28,       /* the results stand beside the slots: a restart isn't there */
    TCAM_USED = 29,         /* the manager has rules, or a commit under way: it isn't restarted */
    TCAM_NO_RESTART = 30,   /* no restart is begun */
    TCAM_NO_BIT = 31,       /* there is no such bit, or no such table */
    TCAM_RANGE_TWICE = 32,  /* the bit has a range already, the range has a bit, or it is one port */
    TCAM_NO_SUCH_SLOT = 33, /* the manager has no such slot */
    TCAM_STAGE = 34         /* the memory shows no stage of the batch's commit */
};

/* How port ranges are cut: into an entry for each pair of blocks of their covers, up to 900 a rule, or into one
 * entry whose bits two translation tables of the memory give, up to 16 ranges of each field, beside those that are
 * one block. Only TCAM_BY_BITS has words of tables among what is due, and only there or with results beside the slots
 * are drains: a memory without such tables takes TCAM_COVER. */
enum tcam_mode { TCAM_COVER = 0, TCAM_BY_BITS = 1 };

/* Where a new entry goes: to the middle of its gap; to the slot of its rank, as routes want it; or by rank but at the
 * ends of the list, where it goes right behind what is above it or right before what is below it, as access lists want
 * it. docs/SCRIPT.md has figures (Placement). */
enum tcam_placement { TCAM_MIDDLE = 0, TCAM_RANK = 1, TCAM_ENDS = 2 };

/* What is due. Later kinds may come: a driver that meets one that it doesn't know makes nothing and tells nothing. */
enum tcam_kind {
    TCAM_NOTHING = 0, /* no commit is under way */
    TCAM_PUT = 1,     /* a slot gets an entry: slot, value, mask, tag, result; with results beside the slots its tag
                       * and result are 0, since they stand in its result word */
    TCAM_ERASE = 2,   /* a slot is emptied: slot; a result word beside it stays */
    TCAM_WORD = 3,    /* a table gets a word at a port: field, port, word */
    TCAM_DRAIN = 4,   /* wait until each word that a look-up made was searched, and tell it by tcam_drained; with
                       * results beside the slots also until each slot that was found has had its result word read */
    TCAM_RESULT = 5   /* a slot gets a result word: slot, tag, result; of a manager by tcam_new_split alone */
};

enum tcam_field { TCAM_SOURCE = 0, TCAM_DESTINATION = 1 };

#define TCAM_LANES 11
#define TCAM_NO_SLOT UINT32_MAX
#define TCAM_ANY_PROTOCOL 256

/* A manager in the caller's own memory. */
struct tcam_manager {
    bool made;
    void *held;
};
#define TCAM_MANAGER_NONE { false, NULL }

/* A rule's priority as a number of 136 bits. Of a route of IPv4: its length, and its address in the last 32 bits; of
 * one of IPv6 its length and its address; of a rule of an access list: 0, and 2^32 less its number. tcam_route_of,
 * tcam_route6_of and tcam_rule_number read them. */
struct tcam_tag {
    uint8_t high;
    uint64_t low_upper;
    uint64_t low_lower;
};

/* What is due, by its kind of enum tcam_kind, in the lanes of the memory. An entry hits a search word where (word ^
 * value) & mask is 0 in every lane, and the hit of lowest slot wins. Lanes 0 to 3 have the source address of IPv6,
 * its upper bits first, and lanes 4 to 7 the destination address; one of IPv4 is in lane 0 and in lane 4, and the
 * other ones are 0. Lane 8 has the source port times 65,536 and the destination port, lane 9 the protocol times
 * 2^24, and lane 10 the source table's word at the source port times 65,536 and the destination table's at the
 * destination port. A memory that is narrower leaves out lanes that no rule tests: a route of IPv4 tests lane 4
 * alone. The tag is that of the rule, for the driver's own use, since no look-up needs it. The field is one of enum
 * tcam_field, and a word has 16 bits. What a kind doesn't name is 0, but for from.
 *
 * Of a TCAM_PUT from is the slot that holds this very entry already, tag and result too, by the writes that were
 * told as made: the entry is moved, and its old copy goes later. Hardware that moves entries, or counts the hits of
 * each, takes it from there. It is the lesser one where two slots hold it, and the slot itself where the entry is
 * written again as it stands. TCAM_NO_SLOT stands for an entry that no slot holds, which is a new one, one that gets
 * another result where it stands, or one that a commit which is taken back had erased; for every other kind; and for
 * all kinds with results beside the slots, where entries are put by parts. */
struct tcam_write {
    uint32_t kind;
    uint32_t slot;
    uint32_t from;
    uint32_t value[TCAM_LANES];
    uint32_t mask[TCAM_LANES];
    struct tcam_tag tag;
    uint32_t result;
    uint32_t field;
    uint32_t port;
    uint32_t word;
};

/* An address of IPv6, in two halves: 2001:db8::1 is {0x20010db800000000, 1}. In what the library tells, an address
 * of IPv4 stands in the upper 32 bits, with 0 below. */
struct tcam_address {
    uint64_t upper;
    uint64_t lower;
};

/* A packet of IPv4, each address as a number: 10.0.0.1 is 0x0a000001. */
struct tcam_key {
    uint32_t source;
    uint32_t destination;
    uint16_t source_port;
    uint16_t destination_port;
    uint8_t protocol;
};

/* A packet of IPv6. */
struct tcam_key6 {
    struct tcam_address source;
    struct tcam_address destination;
    uint16_t source_port;
    uint16_t destination_port;
    uint8_t protocol;
};

/* What a packet is answered: found is 1, with the result and the tag of the rule that decides, or all is 0 where no
 * rule matches it. */
struct tcam_answer {
    uint32_t found;
    uint32_t result;
    struct tcam_tag tag;
};

/* A rule of an access list: of all that match a packet the one of the lowest number decides, which names the rule
 * and is 1 or more. A prefix of length 0 is any address, its address then 0; the protocol is 0 to 255, or
 * TCAM_ANY_PROTOCOL. Both ends belong to a range of ports, and 0 to 65,535 is any: a rule that is all zeros but for
 * its protocol has port 0 alone. */
struct tcam_rule {
    uint32_t number;
    uint32_t source;
    uint32_t destination;
    uint8_t source_length;
    uint8_t destination_length;
    uint16_t protocol;
    uint16_t source_port_first;
    uint16_t source_port_last;
    uint16_t destination_port_first;
    uint16_t destination_port_last;
    uint32_t result;
};

/* A rule of an access list with prefixes of IPv6, up to 128 bits long, likewise. */
struct tcam_rule6 {
    uint32_t number;
    struct tcam_address source;
    struct tcam_address destination;
    uint8_t source_length;
    uint8_t destination_length;
    uint16_t protocol;
    uint16_t source_port_first;
    uint16_t source_port_last;
    uint16_t destination_port_first;
    uint16_t destination_port_last;
    uint32_t result;
};

/* A rule that the manager has, a route or one of an access list: tcam_route_of, tcam_route6_of and tcam_rule_number
 * tell of its tag which one. A route has any source, TCAM_ANY_PROTOCOL and ports 0 to 65,535. */
struct tcam_stored {
    struct tcam_tag tag;
    struct tcam_address source;
    struct tcam_address destination;
    uint8_t source_length;
    uint8_t destination_length;
    uint16_t protocol;
    uint16_t source_port_first;
    uint16_t source_port_last;
    uint16_t destination_port_first;
    uint16_t destination_port_last;
    uint32_t result;
};

/* A commit's writes, or parts of writes, those of them to the tables, the writes of its longest insertion, and the
 * greatest crossing span of one: how many slots the last overlapping entry that must stand before it is past the
 * first one that must stand behind it, 0 where it isn't, as with routes always. A drain is no write. */
struct tcam_numbers {
    uint64_t writes;
    uint32_t words;
    uint32_t most;
    uint32_t span;
};

/* What a refusal tells: left with TCAM_BUSY, the writes that are left; with TCAM_TWICE, TCAM_TAKEN and TCAM_ABSENT
 * the tag of the first rule that is at fault; with TCAM_BITS the field of enum tcam_field, and how many bits are
 * needed and free; with TCAM_SLOTS how many slots. What it doesn't tell is 0. */
struct tcam_refusal {
    uint64_t left;
    struct tcam_tag tag;
    uint32_t field;
    uint32_t need;
    uint32_t free;
};

/* Why a memory shows no stage of a commit, with TCAM_STAGE: its rules or ranges aren't those of this memory, or
 * something else wrote it. What a kind doesn't name is 0. */
enum tcam_restart_kind {
    TCAM_BITS_DIFFER = 1, /* the ranges that were told of the field's bits aren't those of the rules: field */
    TCAM_WRONG_WORD = 2,  /* a bit of a word doesn't say whether the port is in the bit's range: field, port */
    TCAM_FOREIGN = 3,     /* the slot holds an entry that is none of the commit's: slot */
    TCAM_CROSSED = 4,     /* a lesser slot holds an entry of lower priority that overlaps the one here: slot */
    TCAM_TWIN = 5,        /* a lesser slot holds the entry too, with another result, or a third time: slot */
    TCAM_GAP = 6          /* an entry of the rule is missing, or it was written before its turn: tag */
};

struct tcam_restart_fault {
    uint32_t kind;
    uint32_t slot;
    uint32_t field;
    uint32_t port;
    struct tcam_tag tag;
};

/* The functions of the library, which test no pointer. Call those below. */
uint32_t tcam_c_version(void);
uint32_t tcam_c_new(struct tcam_manager *manager, uint32_t slots, uint32_t mode, uint32_t placement);
uint32_t tcam_c_new_split(struct tcam_manager *manager, uint32_t slots, uint32_t mode, uint32_t placement);
uint32_t tcam_c_free(struct tcam_manager *manager);
uint32_t tcam_c_add_route(struct tcam_manager *manager, uint32_t address, uint8_t length, uint32_t result);
uint32_t tcam_c_set_route(struct tcam_manager *manager, uint32_t address, uint8_t length, uint32_t result);
uint32_t tcam_c_del_route(struct tcam_manager *manager, uint32_t address, uint8_t length);
uint32_t tcam_c_add_rule(struct tcam_manager *manager, const struct tcam_rule *rule);
uint32_t tcam_c_set_rule(struct tcam_manager *manager, uint32_t number, uint32_t result);
uint32_t tcam_c_del_rule(struct tcam_manager *manager, uint32_t number);
uint32_t tcam_c_put_route(struct tcam_manager *manager, uint32_t address, uint8_t length, uint32_t result);
uint32_t tcam_c_drop_route(struct tcam_manager *manager, uint32_t address, uint8_t length);
uint32_t tcam_c_put_rule(struct tcam_manager *manager, const struct tcam_rule *rule);
uint32_t tcam_c_drop_rule(struct tcam_manager *manager, uint32_t number);
uint32_t tcam_c_put_route6(struct tcam_manager *manager, const struct tcam_address *address, uint8_t length,
                           uint32_t result);
uint32_t tcam_c_drop_route6(struct tcam_manager *manager, const struct tcam_address *address, uint8_t length);
uint32_t tcam_c_put_rule6(struct tcam_manager *manager, const struct tcam_rule6 *rule);
uint32_t tcam_c_prepare_all(struct tcam_manager *manager, struct tcam_numbers *numbers, struct tcam_refusal *refusal);
uint32_t tcam_c_clear(struct tcam_manager *manager);
uint32_t tcam_c_prepare(struct tcam_manager *manager, struct tcam_numbers *numbers, struct tcam_refusal *refusal);
uint32_t tcam_c_next(struct tcam_manager *manager, struct tcam_write *write);
uint32_t tcam_c_made(struct tcam_manager *manager);
uint32_t tcam_c_drained(struct tcam_manager *manager);
uint32_t tcam_c_abort(struct tcam_manager *manager, uint64_t *left);
uint32_t tcam_c_answer(struct tcam_manager *manager, const struct tcam_key *key, struct tcam_answer *answer);
uint32_t tcam_c_add_route6(struct tcam_manager *manager, const struct tcam_address *address, uint8_t length,
                           uint32_t result);
uint32_t tcam_c_set_route6(struct tcam_manager *manager, const struct tcam_address *address, uint8_t length,
                           uint32_t result);
uint32_t tcam_c_del_route6(struct tcam_manager *manager, const struct tcam_address *address, uint8_t length);
uint32_t tcam_c_add_rule6(struct tcam_manager *manager, const struct tcam_rule6 *rule);
uint32_t tcam_c_answer6(struct tcam_manager *manager, const struct tcam_key6 *key, struct tcam_answer *answer);
uint32_t tcam_c_rules(struct tcam_manager *manager, uint32_t *cursor, struct tcam_stored *rule);
uint32_t tcam_c_free_slots(struct tcam_manager *manager, uint32_t *slots);
uint32_t tcam_c_longest_chain(struct tcam_manager *manager, uint32_t *longest);
uint32_t tcam_c_ranges(struct tcam_manager *manager, uint32_t field, uint8_t bit, uint16_t *first, uint16_t *last);
uint32_t tcam_c_restart_begin(struct tcam_manager *manager);
uint32_t tcam_c_restart_rule(struct tcam_manager *manager, const struct tcam_stored *rule);
uint32_t tcam_c_restart_range(struct tcam_manager *manager, uint32_t field, uint8_t bit, uint16_t first, uint16_t last);
uint32_t tcam_c_restart_slot(struct tcam_manager *manager, const struct tcam_write *entry);
uint32_t tcam_c_restart_word(struct tcam_manager *manager, uint32_t field, uint16_t port, uint16_t word);
uint32_t tcam_c_restart(struct tcam_manager *manager, uint64_t *left, struct tcam_refusal *refusal,
                        struct tcam_restart_fault *fault);
uint32_t tcam_c_restart_clear(struct tcam_manager *manager);

/* The version of the library that the program runs with, which may be another than that of the header that it was
 * compiled with: the major version times 65,536, the minor one times 256, and the patch. */
static inline uint32_t tcam_version(void) {
    return tcam_c_version();
}

/* Makes a manager without rules, of a blank memory with so many slots, 0 to slots - 1. It belongs to the handle until
 * tcam_free, and takes 28,000 bytes and 616 a slot at once, 2.6 MB for 4,096, by TCAM_BY_BITS 262,144 more; its
 * rules, batches and commits come on top (docs/C.md, "What a manager takes"). Other answers are TCAM_MADE_ALREADY,
 * TCAM_SLOTS_RANGE, TCAM_NO_MODE, TCAM_NO_PLACEMENT and TCAM_MEMORY, in this order. */
static inline enum tcam_error tcam_new(struct tcam_manager *manager, uint32_t slots, enum tcam_mode mode,
                                       enum tcam_placement placement) {
    return manager ? (enum tcam_error)tcam_c_new(manager, slots, (uint32_t)mode, (uint32_t)placement) : TCAM_NULL;
}

/* Makes a manager without rules, likewise, of a blank memory whose results stand beside the slots: each slot empty,
 * each result word 0. What is due of its commits are parts. It takes 44,000 bytes and 668 a slot at once, by
 * TCAM_BY_BITS 262,144 more. The answers are those of tcam_new. */
static inline enum tcam_error tcam_new_split(struct tcam_manager *manager, uint32_t slots, enum tcam_mode mode,
                                             enum tcam_placement placement) {
    return manager ? (enum tcam_error)tcam_c_new_split(manager, slots, (uint32_t)mode, (uint32_t)placement) : TCAM_NULL;
}

/* Frees the manager and all that belongs to it, its batch and a commit that is under way too. The handle has no
 * manager then, and may get another. The memory stays as it is, and is blanked before another manager has it. */
static inline enum tcam_error tcam_free(struct tcam_manager *manager) {
    return manager ? (enum tcam_error)tcam_c_free(manager) : TCAM_NULL;
}

/* Changes that join the pending batch, up to 4,096: a route or a rule is added, gets another result, or is removed.
 * The next batch may be collected while a commit is under way. Other answers tell the first thing that is wrong, in
 * this order: TCAM_NUMBER, TCAM_PREFIX_LENGTH and TCAM_HOST_BITS of a route or of a rule's source, then both of its
 * destination, then TCAM_PORTS, TCAM_PROTOCOL, and behind all of these TCAM_BATCH_FULL or TCAM_MEMORY. Whether a
 * rule is there is judged by tcam_prepare. A batch names each rule once, or removes it and then adds another in its
 * place, but for the changes by tcam_put_ and tcam_drop_ below. */
static inline enum tcam_error tcam_add_route(struct tcam_manager *manager, uint32_t address, uint8_t length,
                                             uint32_t result) {
    return manager ? (enum tcam_error)tcam_c_add_route(manager, address, length, result) : TCAM_NULL;
}

static inline enum tcam_error tcam_set_route(struct tcam_manager *manager, uint32_t address, uint8_t length,
                                             uint32_t result) {
    return manager ? (enum tcam_error)tcam_c_set_route(manager, address, length, result) : TCAM_NULL;
}

static inline enum tcam_error tcam_del_route(struct tcam_manager *manager, uint32_t address, uint8_t length) {
    return manager ? (enum tcam_error)tcam_c_del_route(manager, address, length) : TCAM_NULL;
}

static inline enum tcam_error tcam_add_rule(struct tcam_manager *manager, const struct tcam_rule *rule) {
    return manager && rule ? (enum tcam_error)tcam_c_add_rule(manager, rule) : TCAM_NULL;
}

/* The same for IPv6. A rule of either version is changed and removed by its number, and numbers are one list for
 * both. */
static inline enum tcam_error tcam_add_route6(struct tcam_manager *manager, struct tcam_address address,
                                              uint8_t length, uint32_t result) {
    return manager ? (enum tcam_error)tcam_c_add_route6(manager, &address, length, result) : TCAM_NULL;
}

static inline enum tcam_error tcam_set_route6(struct tcam_manager *manager, struct tcam_address address,
                                              uint8_t length, uint32_t result) {
    return manager ? (enum tcam_error)tcam_c_set_route6(manager, &address, length, result) : TCAM_NULL;
}

static inline enum tcam_error tcam_del_route6(struct tcam_manager *manager, struct tcam_address address,
                                              uint8_t length) {
    return manager ? (enum tcam_error)tcam_c_del_route6(manager, &address, length) : TCAM_NULL;
}

static inline enum tcam_error tcam_add_rule6(struct tcam_manager *manager, const struct tcam_rule6 *rule) {
    return manager && rule ? (enum tcam_error)tcam_c_add_rule6(manager, rule) : TCAM_NULL;
}

/* A rule of an access list gets another result, or is removed, by its number. */
static inline enum tcam_error tcam_set_rule(struct tcam_manager *manager, uint32_t number, uint32_t result) {
    return manager ? (enum tcam_error)tcam_c_set_rule(manager, number, result) : TCAM_NULL;
}

static inline enum tcam_error tcam_del_rule(struct tcam_manager *manager, uint32_t number) {
    return manager ? (enum tcam_error)tcam_c_del_rule(manager, number) : TCAM_NULL;
}

/* Changes that don't ask what is there, for feeds that tell what a rule is now, or that it is gone: by tcam_put_ a
 * route or a rule is to stand, whatever stood in its place, and by tcam_drop_ none is, whether one stood there or
 * not. They join the batch as the strict changes above do, beside them or without, with the same answers in the same
 * order; the first of them in a batch may want memory for those that are in it. Of several for one rule the last one
 * counts. tcam_prepare makes the least strict changes of them that the rules as they stand then ask for: none of a
 * rule that stands so already, a new result where the conditions are the same, a removal and an addition where they
 * aren't. A rule of either version goes by its number. */
static inline enum tcam_error tcam_put_route(struct tcam_manager *manager, uint32_t address, uint8_t length,
                                             uint32_t result) {
    return manager ? (enum tcam_error)tcam_c_put_route(manager, address, length, result) : TCAM_NULL;
}

static inline enum tcam_error tcam_drop_route(struct tcam_manager *manager, uint32_t address, uint8_t length) {
    return manager ? (enum tcam_error)tcam_c_drop_route(manager, address, length) : TCAM_NULL;
}

static inline enum tcam_error tcam_put_rule(struct tcam_manager *manager, const struct tcam_rule *rule) {
    return manager && rule ? (enum tcam_error)tcam_c_put_rule(manager, rule) : TCAM_NULL;
}

static inline enum tcam_error tcam_drop_rule(struct tcam_manager *manager, uint32_t number) {
    return manager ? (enum tcam_error)tcam_c_drop_rule(manager, number) : TCAM_NULL;
}

static inline enum tcam_error tcam_put_route6(struct tcam_manager *manager, struct tcam_address address,
                                              uint8_t length, uint32_t result) {
    return manager ? (enum tcam_error)tcam_c_put_route6(manager, &address, length, result) : TCAM_NULL;
}

static inline enum tcam_error tcam_drop_route6(struct tcam_manager *manager, struct tcam_address address,
                                               uint8_t length) {
    return manager ? (enum tcam_error)tcam_c_drop_route6(manager, &address, length) : TCAM_NULL;
}

static inline enum tcam_error tcam_put_rule6(struct tcam_manager *manager, const struct tcam_rule6 *rule) {
    return manager && rule ? (enum tcam_error)tcam_c_put_rule6(manager, rule) : TCAM_NULL;
}

/* Takes every change out of the batch. */
static inline enum tcam_error tcam_clear(struct tcam_manager *manager) {
    return manager ? (enum tcam_error)tcam_c_clear(manager) : TCAM_NULL;
}

/* Judges the batch by the rules, plans every write of its commit, and takes all memory for it. With TCAM_OK the
 * numbers are written, the batch is empty, and the commit is under way, or has finished already where nothing is to
 * be made. Else it answers TCAM_BUSY while a commit is under way; by the batch's changes in their order TCAM_TWICE,
 * TCAM_TAKEN or TCAM_ABSENT; TCAM_BITS; TCAM_SLOTS; or TCAM_MEMORY. Then the refusal is written, nothing is to be
 * made, and the rules and the batch are as they were: tcam_clear the batch and put other changes into it, or call
 * again when there is memory. Each packet is answered as before the call.
 *
 * A batch with changes by tcam_put_ or tcam_drop_ comes to strict ones over the rules, which are judged in its place.
 * None of these is refused for what is there: TCAM_TWICE comes of one for a rule that a strict one names too, at the
 * later of the two, and of the strict ones TCAM_TWICE, TCAM_TAKEN and TCAM_ABSENT as without them. TCAM_MEMORY may
 * come before any of these but TCAM_BUSY. After a refusal the batch has the changes put in. */
static inline enum tcam_error tcam_prepare(struct tcam_manager *manager, struct tcam_numbers *numbers,
                                           struct tcam_refusal *refusal) {
    return manager && numbers && refusal ? (enum tcam_error)tcam_c_prepare(manager, numbers, refusal) : TCAM_NULL;
}

/* Has the batch judged and planned as the whole new set: the rules are to be those that its changes make of no rules
 * at all, so what it adds or puts, and no other. Rules that aren't among them go, those that stand so already stay
 * untouched, and others get another result or are replaced; a batch without changes takes every rule out. It answers
 * TCAM_BUSY; TCAM_TWICE and TCAM_ABSENT by its changes in their order, as over no rules: where a strict one names a
 * rule that is named, or changes or removes one; and else as tcam_prepare, with TCAM_MEMORY before any of these but
 * TCAM_BUSY. Until they are gone the old entries take their slots and bits beside the new ones. A driver that is
 * restarted in such a commit puts each rule of the new set in by tcam_put_, and by tcam_drop_ each saved one that it
 * lacks. */
static inline enum tcam_error tcam_prepare_all(struct tcam_manager *manager, struct tcam_numbers *numbers,
                                               struct tcam_refusal *refusal) {
    return manager && numbers && refusal ? (enum tcam_error)tcam_c_prepare_all(manager, numbers, refusal) : TCAM_NULL;
}

/* Tells what is due: a write or a part of one, the same one until tcam_made comes; a drain until tcam_drained comes;
 * and TCAM_NOTHING where no commit is under way. Of a commit that is turned round it tells undo writes, and no drain.
 * It changes nothing but what write points to. */
static inline enum tcam_error tcam_next(struct tcam_manager *manager, struct tcam_write *write) {
    return manager && write ? (enum tcam_error)tcam_c_next(manager, write) : TCAM_NULL;
}

/* The write that tcam_next tells was made: what comes behind it is due, and after the last one the rules are the new
 * set, or the old one where the commit is turned round. Call it once for each write, and only where that was made:
 * nothing can test it. TCAM_NOTHING_DUE comes exactly where no commit is under way, and TCAM_DRAIN_DUE exactly where
 * a drain is due; then nothing changes. */
static inline enum tcam_error tcam_made(struct tcam_manager *manager) {
    return manager ? (enum tcam_error)tcam_c_made(manager) : TCAM_NULL;
}

/* The drain that tcam_next tells was made: no look-up whose search word was made before is still to be searched, nor,
 * with results beside the slots, to read its result word. What comes behind it is due. TCAM_NOTHING_DUE comes exactly
 * where no commit is under way, and TCAM_WRITE_DUE exactly where a write is due; then nothing changes. */
static inline enum tcam_error tcam_drained(struct tcam_manager *manager) {
    return manager ? (enum tcam_error)tcam_c_drained(manager) : TCAM_NULL;
}

/* Turns the commit that is under way round: from now on tcam_next tells the writes that undo those that tcam_made was
 * called for, the last one first, and tcam_made takes them. With TCAM_OK it writes how many there are to left. After
 * the last one, or at once where there are none, no commit is under way, the rules are the old ones, and the memory
 * holds what it did before the commit. The way back passes only what the memory held on the way there, so packets may
 * be looked up all along; no drain is due, and look-ups under way need not be waited for, also where the commit had
 * drained or was to drain. The pending batch stays as it is.
 *
 * What becomes of a write that failed: where it is sure that it did nothing, or it wasn't tried, call tcam_abort at
 * once. Where it may have been made all the same, make it first, until it succeeds, and call tcam_made; or find out
 * by reading the slot or the word back, and call tcam_made where it was made. No undo write goes to its slot else. A
 * driver that can do neither frees the manager, blanks the memory, and makes a new one. An undo write that fails is
 * due still, as any write is.
 *
 * With results beside the slots a commit is dropped of which no part and no drain was made, with none left to undo,
 * and TCAM_BEGUN comes exactly where one was made.
 *
 * TCAM_NOTHING_DUE comes exactly where no commit is under way, and TCAM_RESTARTED exactly where a restart goes on
 * with the one that is: left isn't written then, nor with TCAM_BEGUN. TCAM_BACK comes exactly where the commit is
 * turned round already, with how many undo writes are left. With each of these nothing changes. */
static inline enum tcam_error tcam_abort(struct tcam_manager *manager, uint64_t *left) {
    return manager && left ? (enum tcam_error)tcam_c_abort(manager, left) : TCAM_NULL;
}

/* Tells what the memory answers to a packet by the writes that were told as made: with no commit under way what the
 * rules do, and with one what the old rules or the new ones do. It asks no memory of the caller's, and changes
 * nothing but what answer points to. */
static inline enum tcam_error tcam_answer(struct tcam_manager *manager, const struct tcam_key *key,
                                          struct tcam_answer *answer) {
    return manager && key && answer ? (enum tcam_error)tcam_c_answer(manager, key, answer) : TCAM_NULL;
}

/* The same of a packet of IPv6. */
static inline enum tcam_error tcam_answer6(struct tcam_manager *manager, const struct tcam_key6 *key,
                                           struct tcam_answer *answer) {
    return manager && key && answer ? (enum tcam_error)tcam_c_answer6(manager, key, answer) : TCAM_NULL;
}

/* Tells the rule at the cursor, which is 0 for the one of the highest priority, and moves the cursor on by one: with
 * cursor 0 at first, until TCAM_NO_RULE, each rule is told once, in falling priority. TCAM_NO_RULE comes exactly
 * where the cursor is the number of rules or more; then neither is written. While a commit is under way the rules
 * are those before it; its last tcam_made changes them, so a cursor that was begun before counts others behind it.
 * It takes no memory. */
static inline enum tcam_error tcam_rules(struct tcam_manager *manager, uint32_t *cursor, struct tcam_stored *rule) {
    return manager && cursor && rule ? (enum tcam_error)tcam_c_rules(manager, cursor, rule) : TCAM_NULL;
}

/* Tells how many slots the entries of the rules leave free, as TCAM_SLOTS would: while a commit is under way by the
 * rules before it. It takes no memory. */
static inline enum tcam_error tcam_free_slots(struct tcam_manager *manager, uint32_t *slots) {
    return manager && slots ? (enum tcam_error)tcam_c_free_slots(manager, slots) : TCAM_NULL;
}

/* Tells the length of the longest overlap chain of the rules: of a longest list of them in which each has a higher
 * priority than the next, and some packet matches both; 0 where there are no rules. While a commit is under way they
 * are the rules before it. Behind a commit that only added it is the m of the bounds on insertions (docs/C.md, "How
 * long an insertion may get"); how many writes the longest of a commit takes tcam_prepare tells. It tests each pair of
 * rules at most once, 8 million pairs of 4,096, and takes four bytes a rule until it returns: TCAM_MEMORY comes only
 * where they are wanting, and then longest isn't written. */
static inline enum tcam_error tcam_longest_chain(struct tcam_manager *manager, uint32_t *longest) {
    return manager && longest ? (enum tcam_error)tcam_c_longest_chain(manager, longest) : TCAM_NULL;
}

/* Tells the port range that a bit of a field stands for, bit 0 to 15, by its first and its last port. A driver that is
 * to be restarted saves them beside the rules. While a commit is under way they are those before it. TCAM_NO_RANGE
 * comes exactly where no range has the bit, as where there is no such field or bit and always by TCAM_COVER, and
 * TCAM_BESIDE exactly with results beside the slots, where no restart is there; then neither is written. It takes no
 * memory. */
static inline enum tcam_error tcam_ranges(struct tcam_manager *manager, enum tcam_field field, uint8_t bit,
                                          uint16_t *first, uint16_t *last) {
    return manager && first && last ? (enum tcam_error)tcam_c_ranges(manager, (uint32_t)field, bit, first, last)
                                    : TCAM_NULL;
}

/* Begins a restart of a manager by tcam_new that has no rules: what it leads is the memory that outlived another
 * manager, and nothing is told of that yet. It takes 287,000 bytes and 252 a slot, until tcam_restart_clear or a
 * tcam_restart that goes on, whose manager then leads them. Called again it begins anew. Other answers are
 * TCAM_BESIDE with results beside the slots, TCAM_USED where there are rules or a commit is under way, and
 * TCAM_MEMORY, in this order. */
static inline enum tcam_error tcam_restart_begin(struct tcam_manager *manager) {
    return manager ? (enum tcam_error)tcam_c_restart_begin(manager) : TCAM_NULL;
}

/* Tells what the other manager left, and what the memory holds, in any order: each rule, as tcam_rules told it, while
 * a commit was under way those before it; the port range of each bit, as tcam_ranges did; each slot that isn't empty,
 * of whose write slot, value, mask, tag and result are read; and each word of a table that isn't 0. What is told of a
 * slot or a word a second time counts. Each answers TCAM_NO_RESTART exactly where no restart is begun, and with any
 * code but TCAM_OK what was told stays as it was. The other answers, in this order: of a rule TCAM_PREFIX_LENGTH and
 * TCAM_HOST_BITS of its source, then of its destination, TCAM_PORTS, TCAM_PROTOCOL, TCAM_TAKEN where one of its tag
 * was told, TCAM_SLOTS where as many rules were told as there are slots, and TCAM_MEMORY; of a range TCAM_NO_BIT for
 * a field or a bit that isn't there, as with any by TCAM_COVER, TCAM_PORTS and TCAM_RANGE_TWICE; of a slot
 * TCAM_NO_SUCH_SLOT and TCAM_MEMORY; of a word TCAM_NO_BIT and TCAM_MEMORY. */
static inline enum tcam_error tcam_restart_rule(struct tcam_manager *manager, const struct tcam_stored *rule) {
    return manager && rule ? (enum tcam_error)tcam_c_restart_rule(manager, rule) : TCAM_NULL;
}

static inline enum tcam_error tcam_restart_range(struct tcam_manager *manager, enum tcam_field field, uint8_t bit,
                                                 uint16_t first, uint16_t last) {
    return manager ? (enum tcam_error)tcam_c_restart_range(manager, (uint32_t)field, bit, first, last) : TCAM_NULL;
}

static inline enum tcam_error tcam_restart_slot(struct tcam_manager *manager, const struct tcam_write *entry) {
    return manager && entry ? (enum tcam_error)tcam_c_restart_slot(manager, entry) : TCAM_NULL;
}

static inline enum tcam_error tcam_restart_word(struct tcam_manager *manager, enum tcam_field field, uint16_t port,
                                                uint16_t word) {
    return manager ? (enum tcam_error)tcam_c_restart_word(manager, (uint32_t)field, port, word) : TCAM_NULL;
}

/* Goes on with the commit of the pending batch, which is the one that was put in before the stop, or an empty one
 * where no commit was begun: how far it came the memory shows. With TCAM_OK the writes that are left are due, as many
 * as are written to left, and a drain where one is needed; with none left it has finished. The batch is empty then,
 * nothing is told any more, and tcam_abort answers TCAM_RESTARTED until the last tcam_made. Changes by tcam_put_ and
 * tcam_drop_ come to strict ones over the rules that were told, so to the same ones as before the stop. Else it
 * answers TCAM_BESIDE, TCAM_NO_RESTART, TCAM_USED; where the rules alone refuse the batch what tcam_prepare would,
 * with the refusal; TCAM_STAGE, with the fault; or TCAM_MEMORY, which may come before it. Then all stays as it was,
 * what was told too: the memory may be repaired, told of, and the call made again. Look-ups that were under way at the
 * stop are gone. */
static inline enum tcam_error tcam_restart(struct tcam_manager *manager, uint64_t *left, struct tcam_refusal *refusal,
                                           struct tcam_restart_fault *fault) {
    return manager && left && refusal && fault ? (enum tcam_error)tcam_c_restart(manager, left, refusal, fault)
                                               : TCAM_NULL;
}

/* Takes all out again that was told, and gives its memory back. */
static inline enum tcam_error tcam_restart_clear(struct tcam_manager *manager) {
    return manager ? (enum tcam_error)tcam_c_restart_clear(manager) : TCAM_NULL;
}

/* The number of the rule of an access list that has this tag, 1 or more, or 0 where the tag is that of none. */
static inline uint32_t tcam_rule_number(struct tcam_tag tag) {
    const uint64_t past = (uint64_t)1 << 32;
    if (tag.high != 0 || tag.low_upper != 0 || tag.low_lower == 0 || tag.low_lower >= past) return 0;
    return (uint32_t)(past - tag.low_lower);
}

/* Whether a tag is that of a route of IPv4, whose address and length are written then; a pointer that is null isn't
 * written to. */
static inline bool tcam_route_of(struct tcam_tag tag, uint32_t *address, uint8_t *length) {
    if (tag.high > 32 || tag.low_upper != 0 || tag.low_lower >> 32 != 0) return false;
    if (tag.low_lower << tag.high & UINT32_MAX) return false;
    if (address) *address = (uint32_t)tag.low_lower;
    if (length) *length = tag.high;
    return true;
}

/* The same of a route of IPv6. A tag whose address is 0 is that of a route of either version. */
static inline bool tcam_route6_of(struct tcam_tag tag, struct tcam_address *address, uint8_t *length) {
    const uint64_t past_upper = tag.high < 64 ? UINT64_MAX >> tag.high : 0;
    const uint64_t past_lower = tag.high <= 64 ? UINT64_MAX : tag.high < 128 ? UINT64_MAX >> (tag.high - 64) : 0;
    if (tag.high > 128 || (tag.low_upper & past_upper) != 0 || (tag.low_lower & past_lower) != 0) return false;
    if (address) address->upper = tag.low_upper, address->lower = tag.low_lower;
    if (length) *length = tag.high;
    return true;
}

/* An answer's text, a constant that nobody frees. */
static inline const char *tcam_error_text(enum tcam_error error) {
    switch (error) {
    case TCAM_OK: return "done";
    case TCAM_NO_MANAGER: return "the handle has no manager";
    case TCAM_MADE_ALREADY: return "the handle has a manager already";
    case TCAM_SLOTS_RANGE: return "slots are 1 to 1048576";
    case TCAM_NO_MODE: return "no such mode";
    case TCAM_NO_PLACEMENT: return "no such placement";
    case TCAM_PREFIX_LENGTH: return "length past the address";
    case TCAM_HOST_BITS: return "host bits";
    case TCAM_PORTS: return "a range of ports ends before it begins";
    case TCAM_PROTOCOL: return "no such protocol";
    case TCAM_BATCH_FULL: return "batch full";
    case TCAM_MEMORY: return "out of memory";
    case TCAM_BUSY: return "a commit is under way";
    case TCAM_TWICE: return "a rule is named twice";
    case TCAM_TAKEN: return "a rule is taken";
    case TCAM_ABSENT: return "a rule is absent";
    case TCAM_BITS: return "too few bits are free";
    case TCAM_SLOTS: return "too few slots are free";
    case TCAM_NOTHING_DUE: return "nothing is due";
    case TCAM_NULL: return "a pointer is null";
    case TCAM_DRAIN_DUE: return "a drain is due";
    case TCAM_WRITE_DUE: return "a write is due";
    case TCAM_BACK: return "the commit is turned round already";
    case TCAM_RESTARTED: return "a restart goes on with the commit";
    case TCAM_BEGUN: return "the commit has begun, and is made by parts";
    case TCAM_NUMBER: return "rules are numbered from 1";
    case TCAM_NO_RULE: return "no rule at the cursor";
    case TCAM_NO_RANGE: return "no port range has the bit";
    case TCAM_BESIDE: return "the results stand beside the slots";
    case TCAM_USED: return "the manager has rules, or a commit under way";
    case TCAM_NO_RESTART: return "no restart is begun";
    case TCAM_NO_BIT: return "no such bit or table";
    case TCAM_RANGE_TWICE: return "bit or range told twice, or one port";
    case TCAM_NO_SUCH_SLOT: return "no such slot";
    case TCAM_STAGE: return "the memory shows no stage of the commit";
    }
    return "no such answer";
}

#ifdef __cplusplus
}
#endif

#endif
