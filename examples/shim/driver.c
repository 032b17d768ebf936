/* A driver of routes, as a vendor might ship it. The highest index wins, so the routes stand by rising length from index 0
 * on. To make room for one, the longer ones move one index up, the last of them first.
 *
 * And it leaks: what moves is cleared before it is written one index further, so for the time of one write its packets
 * go where a shorter route sends them, or nowhere. Built with COPY_FIRST it is mended: a route is written one index further,
 * and stands twice until another one takes its old place. */
#include "vendor.h"

#include <stdbool.h>

struct route {
    uint32_t address;
    unsigned length;
    uint32_t port;
};

/* what the driver has written, by index */
static struct route table[CHIP_ENTRIES];
static uint32_t used;

static uint32_t mask_of(unsigned length) {
    return length == 0 ? 0 : 0xffffffffu << (32 - length);
}

static int write_route(uint32_t index, struct route route) {
    table[index] = route;
    return sdk_entry_write(index, route.address, mask_of(route.length), route.port);
}

static bool is_route(uint32_t address, unsigned length) {
    return length <= 32 && (address & ~mask_of(length)) == 0;
}

/* where the route stands, or how many there are */
static uint32_t index_of(uint32_t address, unsigned length) {
    uint32_t index = 0;
    while (index < used && (table[index].address != address || table[index].length != length)) index++;
    return index;
}

/* the least index whose route is longer */
static uint32_t place_for(unsigned length) {
    uint32_t index = 0;
    while (index < used && table[index].length <= length) index++;
    return index;
}

/* Moves the routes from an index on one further. */
static int move_up(uint32_t from) {
    for (uint32_t index = used; index > from; index--) {
#ifndef COPY_FIRST
        if (sdk_entry_clear(index - 1)) return -1;
#endif
        if (write_route(index, table[index - 1])) return -1;
    }
    return 0;
}

/* Moves the routes behind an index one back, over what stands there. A route that is longer than all others has none behind. */
static int move_down(uint32_t to) {
    for (uint32_t index = to; index + 1 < used; index++) {
        if (write_route(index, table[index + 1])) return -1;
    }
    return sdk_entry_clear(used - 1);
}

int driver_route_add(uint32_t address, unsigned length, uint32_t port) {
    if (!is_route(address, length) || used == CHIP_ENTRIES || index_of(address, length) < used) return -1;
    uint32_t index = place_for(length);
    if (move_up(index)) return -1;
    used++;
    return write_route(index, (struct route){address, length, port});
}

int driver_route_set(uint32_t address, unsigned length, uint32_t port) {
    uint32_t index = index_of(address, length);
    if (index == used) return -1;
    return write_route(index, (struct route){address, length, port});
}

int driver_route_del(uint32_t address, unsigned length) {
    uint32_t index = index_of(address, length);
    if (index == used) return -1;
    if (move_down(index)) return -1;
    used--;
    return 0;
}
