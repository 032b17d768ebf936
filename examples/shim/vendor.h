/* What a vendor ships: calls to the chip, and a driver of routes above them. Nothing here knows of a trace. */
#ifndef VENDOR_H
#define VENDOR_H

#include <stdint.h>

#define CHIP_ENTRIES 64

/* One write of the chip each: an entry of it, and the port that its packets go to. A packet gets the answer of the highest
 * index whose entry matches its destination address wherever the mask is set. Anything but 0 means that nothing was written. */
int sdk_entry_write(uint32_t index, uint32_t address, uint32_t mask, uint32_t port);
int sdk_entry_clear(uint32_t index);

/* The driver's calls. Anything but 0 means that the call was refused. */
int driver_route_add(uint32_t address, unsigned length, uint32_t port);
int driver_route_set(uint32_t address, unsigned length, uint32_t port);
int driver_route_del(uint32_t address, unsigned length);

#endif
