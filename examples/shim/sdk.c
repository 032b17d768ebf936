/* The chip takes whatever it gets: here nobody sends packets. */
#include "vendor.h"

int sdk_entry_write(uint32_t index, uint32_t address, uint32_t mask, uint32_t port) {
    (void)address, (void)mask, (void)port;
    return index < CHIP_ENTRIES ? 0 : -1;
}

int sdk_entry_clear(uint32_t index) {
    return index < CHIP_ENTRIES ? 0 : -1;
}
