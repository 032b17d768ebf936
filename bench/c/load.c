/* The first load of 4,096 routes through the library for C: the time of tcam_prepare and of all writes, in nanoseconds.
 * */
#include "tcam.h"

#include <stdio.h>
#include <time.h>

static uint32_t lanes;

static void put(const struct tcam_write *write) {
    lanes += write->value[4] + write->slot;
}

int main(void) {
    for (int round = 0; round < 20; round++) {
        struct tcam_manager manager = TCAM_MANAGER_NONE;
        struct tcam_numbers numbers;
        struct tcam_refusal refusal;
        struct tcam_write write;
        struct timespec start, end;
        if (tcam_new(&manager, 4096, TCAM_COVER, TCAM_MIDDLE) != TCAM_OK) return 1;
        for (uint32_t i = 0; i < 4096; i++)
            if (tcam_add_route(&manager, 0x0a000000u + (i << 8), 24, i) != TCAM_OK) return 1;
        clock_gettime(CLOCK_MONOTONIC, &start);
        if (tcam_prepare(&manager, &numbers, &refusal) != TCAM_OK) return 1;
        while (tcam_next(&manager, &write) == TCAM_OK && write.kind != TCAM_NOTHING) {
            put(&write);
            tcam_made(&manager);
        }
        clock_gettime(CLOCK_MONOTONIC, &end);
        printf("%lld\n", (long long)(end.tv_sec - start.tv_sec) * 1000000000 + (end.tv_nsec - start.tv_nsec));
        tcam_free(&manager);
    }
    return lanes == 1;
}
