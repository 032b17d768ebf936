/* A driver over an array of registers, of which it uses eight slots: it carries commits out, makes a write that failed
 * again, waits for look-ups where a drain is due, and takes a commit back that is stuck. The routes are those of
 * crates/route_daemon, and so is the output of the first part; the second part has rules with port ranges, whose
 * commits drain; and in the third a slot is broken. */
#include "registers.h"

#include <stdio.h>

/* Makes every write of the commit under way, each as often as it fails, up to so many times. */
static bool carry_out(struct tcam_manager *manager, struct registers *registers, unsigned tries) {
    struct tcam_write write;
    unsigned failures = 0;
    while (tcam_next(manager, &write) == TCAM_OK && write.kind != TCAM_NOTHING) {
        if (write.kind == TCAM_DRAIN) {
            /* Each look-up that made its word must have been searched. Here none is under way between two calls;
             * hardware with a pipeline waits for its last stage. */
            printf("  drain\n");
            tcam_drained(manager);
        } else if (registers_put(registers, &write)) {
            failures = 0;
            tcam_made(manager);
        } else if (++failures == tries) {
            return false; /* the write that failed is due: call again later */
        }
        /* packets may be looked up here */
    }
    return true;
}

static enum tcam_error commit(struct tcam_manager *manager, struct registers *registers) {
    struct tcam_numbers numbers;
    struct tcam_refusal refusal;
    enum tcam_error error = tcam_prepare(manager, &numbers, &refusal);
    if (error != TCAM_OK) return error;
    printf("commit writes %llu\n", (unsigned long long)numbers.writes);
    if (!carry_out(manager, registers, 3)) {
        /* Three failures in a row are those of a broken slot, so the write that is due did nothing. Where it may have
         * been made all the same, it is to be made, or read back, before tcam_abort. */
        uint64_t left;
        error = tcam_abort(manager, &left);
        printf("  taken back by %llu writes\n", (unsigned long long)left);
        while (!carry_out(manager, registers, 3)) {
        }
    }
    return error;
}

static void tell(const struct registers *registers) {
    struct tcam_key key = {.destination = 0x0a010203};
    printf("  10.1.2.3 goes to %lld\n", (long long)registers_answer(registers, &key));
}

static enum tcam_error routes(struct tcam_manager *manager, struct registers *registers) {
    static const struct { uint32_t address; uint8_t length; uint32_t port; } routes[] = {
        {0x0a000000, 8, 7}, {0x0a010200, 24, 8}, {0x0a010000, 16, 9}, {0x0a010000, 20, 5}};
    enum tcam_error error = tcam_new(manager, 8, TCAM_COVER, TCAM_MIDDLE);
    for (size_t i = 0; error == TCAM_OK && i < sizeof routes / sizeof *routes; i++) {
        error = tcam_add_route(manager, routes[i].address, routes[i].length, routes[i].port);
        if (error == TCAM_OK) error = commit(manager, registers);
        tell(registers);
    }
    if (error == TCAM_OK) error = tcam_del_route(manager, 0x0a010200, 24);
    if (error == TCAM_OK) error = tcam_set_route(manager, 0x0a010000, 20, 6);
    if (error == TCAM_OK) error = commit(manager, registers);
    tell(registers);
    tcam_free(manager);
    return error;
}

/* Two rules with the same range of ports: the first commit gives it a bit and drains, and the second doesn't. */
static enum tcam_error port_ranges(struct tcam_manager *manager, struct registers *registers) {
    struct tcam_rule rule = {.destination = 0x0a000000, .destination_length = 8, .protocol = TCAM_ANY_PROTOCOL,
                             .source_port_last = 65535, .destination_port_last = 5};
    enum tcam_error error = tcam_new(manager, 8, TCAM_BY_BITS, TCAM_RANK);
    for (rule.number = 2; error == TCAM_OK && rule.number > 0; rule.number--) {
        rule.result = rule.number;
        error = tcam_add_rule(manager, &rule);
        if (error == TCAM_OK) error = commit(manager, registers);
        tell(registers);
    }
    tcam_free(manager);
    return error;
}

/* A slot is broken that the second commit needs behind its first write: the rules stay those of the first commit. */
static enum tcam_error broken_slot(struct tcam_manager *manager, struct registers *registers) {
    static const struct { uint32_t address; uint8_t length; } routes[] = {
        {0x0a000000, 8}, {0x0a010000, 16}, {0x0a010200, 24}, {0x0a010203, 32}};
    enum tcam_error error = tcam_new(manager, 8, TCAM_COVER, TCAM_MIDDLE);
    registers->broken = 3;
    for (size_t i = 0; error == TCAM_OK && i < sizeof routes / sizeof *routes; i++) {
        error = tcam_add_route(manager, routes[i].address, routes[i].length, routes[i].length);
        if (error != TCAM_OK || i % 2 == 0) continue;
        error = commit(manager, registers);
        tell(registers);
    }
    tcam_free(manager);
    return error;
}

int main(void) {
    static struct registers registers, others, broken;
    struct tcam_manager manager = TCAM_MANAGER_NONE;
    enum tcam_error error = routes(&manager, &registers);
    if (error == TCAM_OK) error = port_ranges(&manager, &others);
    if (error == TCAM_OK) error = broken_slot(&manager, &broken);
    if (error != TCAM_OK) fprintf(stderr, "%s\n", tcam_error_text(error));
    return error == TCAM_OK ? 0 : 1;
}
