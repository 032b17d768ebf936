/* What a manager takes: the bytes that the library has of malloc and realloc, which the linker sends here
 * (-Wl,--wrap=malloc,--wrap=realloc,--wrap=free). */
#include "tcam.h"

#include <stdio.h>
#include <stdlib.h>

void *__real_malloc(size_t size);
void __real_free(void *block);

/* Each block has its size before it. */
enum { HEAD = 16 };
static size_t taken, most;

void *__wrap_malloc(size_t size) {
    char *block = __real_malloc(size + HEAD);
    if (!block) return NULL;
    *(size_t *)(void *)block = size;
    taken += size;
    if (taken > most) most = taken;
    return block + HEAD;
}

void __wrap_free(void *block) {
    if (!block) return;
    taken -= *(size_t *)(void *)((char *)block - HEAD);
    __real_free((char *)block - HEAD);
}

void *__wrap_realloc(void *block, size_t size) {
    char *other = __wrap_malloc(size);
    if (!other || !block) return other;
    size_t old = *(size_t *)(void *)((char *)block - HEAD);
    for (size_t i = 0; i < old && i < size; i++) other[i] = ((char *)block)[i];
    __wrap_free(block);
    return other;
}

static void check(enum tcam_error error) {
    if (error == TCAM_OK) return;
    printf("%s\n", tcam_error_text(error));
    exit(1);
}

static const uint32_t slots[] = {1, 64, 512, 1024, 2048, 4096};
enum { SIZES = sizeof slots / sizeof *slots };
typedef enum tcam_error maker(struct tcam_manager *, uint32_t, enum tcam_mode, enum tcam_placement);

static void managers(const char *name, maker *make, enum tcam_mode mode) {
    printf("%s:", name);
    for (int i = 0; i < SIZES; i++) {
        struct tcam_manager manager = TCAM_MANAGER_NONE;
        size_t before = taken;
        check(make(&manager, slots[i], mode, TCAM_ENDS));
        printf(" %zu", taken - before);
        check(tcam_free(&manager));
    }
    printf("\n");
}

static void restarts(void) {
    printf("more from tcam_restart_begin on:");
    for (int i = 0; i < SIZES; i++) {
        struct tcam_manager manager = TCAM_MANAGER_NONE;
        check(tcam_new(&manager, slots[i], TCAM_COVER, TCAM_ENDS));
        size_t before = taken;
        check(tcam_restart_begin(&manager));
        printf(" %zu", taken - before);
        check(tcam_free(&manager));
    }
    printf("\n");
}

/* A rule with a number and a destination of its own, of every other one with ports that are no block. */
static void add(struct tcam_manager *manager, uint32_t number, bool with_ranges) {
    struct tcam_rule rule = {.number = number + 1, .source_port_last = 65535, .destination_port_last = 65535,
                             .protocol = TCAM_ANY_PROTOCOL, .destination = 0x0a000000u + (number << 8),
                             .destination_length = 24, .result = number};
    if (with_ranges && number % 2) rule.destination_port_first = 1024;
    check(tcam_add_rule(manager, &rule));
}

/* A first load, and then a commit of one rule more. */
static void loads(const char *name, maker *make, enum tcam_mode mode, uint32_t count, bool with_ranges) {
    struct tcam_manager manager = TCAM_MANAGER_NONE;
    check(make(&manager, 4096, mode, TCAM_ENDS));
    size_t empty = taken;
    uint32_t number = 0;
    for (; number < count; number++) add(&manager, number, with_ranges);
    for (int commit = 0; commit < 2; commit++) {
        struct tcam_numbers numbers;
        struct tcam_refusal refusal;
        struct tcam_write write;
        size_t batch = taken;
        most = taken;
        check(tcam_prepare(&manager, &numbers, &refusal));
        size_t planned = taken;
        for (;;) {
            check(tcam_next(&manager, &write));
            if (write.kind == TCAM_NOTHING) break;
            check((write.kind == TCAM_DRAIN ? tcam_drained : tcam_made)(&manager));
        }
        printf("%s, %s of %u rules: batch %zu more than an empty manager, planned %zu, most %zu, behind the commit %zu\n",
               name, commit ? "then one more" : "a first load", (unsigned)count, batch - empty, planned - empty,
               most - empty, taken - empty);
        add(&manager, number++, false);
    }
    check(tcam_free(&manager));
}

int main(void) {
    printf("slots:");
    for (int i = 0; i < SIZES; i++) printf(" %u", (unsigned)slots[i]);
    printf("\n");
    managers("tcam_new, TCAM_COVER", tcam_new, TCAM_COVER);
    managers("tcam_new, TCAM_BY_BITS", tcam_new, TCAM_BY_BITS);
    managers("tcam_new_split, TCAM_COVER", tcam_new_split, TCAM_COVER);
    managers("tcam_new_split, TCAM_BY_BITS", tcam_new_split, TCAM_BY_BITS);
    restarts();
    loads("TCAM_COVER", tcam_new, TCAM_COVER, 1024, false);
    loads("TCAM_BY_BITS", tcam_new, TCAM_BY_BITS, 1024, true);
    loads("tcam_new_split, TCAM_COVER", tcam_new_split, TCAM_COVER, 1024, false);
    return taken != 0;
}
