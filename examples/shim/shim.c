/* Stands between a driver and its SDK, and between the driver and who calls it: the linker has each call of `f` go to
 * `__wrap_f`, and `__real_f` is what it was (`-Wl,--wrap=f`; `check` has the list). Neither driver nor caller is changed or
 * compiled anew. The trace goes to the file that DRIVER_TRACE names; without one nothing is logged. */
#include "trace_log.h"
#include "vendor.h"

#include <stdbool.h>
#include <stdlib.h>

int __real_sdk_entry_write(uint32_t index, uint32_t address, uint32_t mask, uint32_t port);
int __real_sdk_entry_clear(uint32_t index);
int __real_driver_route_add(uint32_t address, unsigned length, uint32_t port);
int __real_driver_route_set(uint32_t address, unsigned length, uint32_t port);
int __real_driver_route_del(uint32_t address, unsigned length);
int __wrap_sdk_entry_write(uint32_t index, uint32_t address, uint32_t mask, uint32_t port);
int __wrap_sdk_entry_clear(uint32_t index);
int __wrap_driver_route_add(uint32_t address, unsigned length, uint32_t port);
int __wrap_driver_route_set(uint32_t address, unsigned length, uint32_t port);
int __wrap_driver_route_del(uint32_t address, unsigned length);

static struct trace_log trace;

static void end(void) {
    trace_end(&trace);
    fclose(trace.out);
}

/* Begins the trace with the driver's first call. */
static bool is_traced(void) {
    static bool begun;
    if (!begun) {
        begun = true;
        const char *name = getenv("DRIVER_TRACE");
        FILE *out = name ? fopen(name, "w") : NULL;
        if (out) {
            trace_begin(&trace, out, "route", CHIP_ENTRIES);
            atexit(end);
        }
    }
    return trace.out != NULL;
}

/* In a trace the least slot answers, in this chip the highest index. */
static uint32_t slot_of(uint32_t index) {
    return CHIP_ENTRIES - 1 - index;
}

static unsigned length_of(uint32_t mask) {
    unsigned length = 0;
    for (; mask; mask <<= 1) length++;
    return length;
}

static uint64_t priority_of(uint32_t address, unsigned length) {
    return (uint64_t)length << 32 | address;
}

int __wrap_sdk_entry_write(uint32_t index, uint32_t address, uint32_t mask, uint32_t port) {
    int failed = __real_sdk_entry_write(index, address, mask, port);
    if (!failed && is_traced()) {
        struct trace_entry entry = {.value = {0, address}, .mask = {0, mask}, .result = port};
        entry.priority = priority_of(address, length_of(mask));
        trace_put(&trace, slot_of(index), &entry);
    }
    return failed;
}

int __wrap_sdk_entry_clear(uint32_t index) {
    int failed = __real_sdk_entry_clear(index);
    if (!failed && is_traced()) trace_erase(&trace, slot_of(index));
    return failed;
}

static int ended(int failed) {
    if (is_traced()) (failed ? trace_failed : trace_done)(&trace);
    return failed;
}

int __wrap_driver_route_add(uint32_t address, unsigned length, uint32_t port) {
    if (is_traced()) {
        struct trace_rule rule = {.protocol = -1, .source_ports = {0, 65535}, .destination_ports = {0, 65535}};
        rule.priority = priority_of(address, length);
        rule.destination = address;
        rule.destination_length = length;
        rule.result = port;
        trace_commit(&trace);
        trace_add(&trace, &rule);
    }
    return ended(__real_driver_route_add(address, length, port));
}

int __wrap_driver_route_set(uint32_t address, unsigned length, uint32_t port) {
    if (is_traced()) {
        trace_commit(&trace);
        trace_set(&trace, priority_of(address, length), port);
    }
    return ended(__real_driver_route_set(address, length, port));
}

int __wrap_driver_route_del(uint32_t address, unsigned length) {
    if (is_traced()) {
        trace_commit(&trace);
        trace_del(&trace, priority_of(address, length));
    }
    return ended(__real_driver_route_del(address, length));
}
