/* Who calls the driver: routes come, get another port, and go. It knows nothing of a trace either. */
#include "vendor.h"

#include <stdio.h>

#define ADDRESS(a, b, c, d) ((uint32_t)(a) << 24 | (b) << 16 | (c) << 8 | (d))

static void tell(const char *what, uint32_t address, unsigned length, int failed) {
    printf("%s %u.%u.%u.%u/%u%s\n", what, address >> 24, address >> 16 & 255, address >> 8 & 255, address & 255, length,
           failed ? " refused" : "");
}

static void add(uint32_t address, unsigned length, uint32_t port) {
    tell("add", address, length, driver_route_add(address, length, port));
}

static void set(uint32_t address, unsigned length, uint32_t port) {
    tell("set", address, length, driver_route_set(address, length, port));
}

static void del(uint32_t address, unsigned length) {
    tell("del", address, length, driver_route_del(address, length));
}

int main(void) {
    add(0, 0, 1);
    add(ADDRESS(10, 0, 0, 0), 8, 7);
    add(ADDRESS(10, 0, 0, 0), 8, 9); /* there is one, so it is refused */
    add(ADDRESS(10, 1, 2, 0), 24, 8);
    set(ADDRESS(10, 0, 0, 0), 8, 6);
    add(ADDRESS(10, 1, 0, 0), 16, 9); /* here the longer one has to move */
    add(ADDRESS(192, 168, 0, 0), 16, 4);
    del(ADDRESS(10, 0, 0, 0), 8);
    del(ADDRESS(10, 0, 0, 0), 8);
    del(ADDRESS(10, 1, 2, 0), 24);
    return 0;
}
