/* The three functions by which the library has memory, as a build without malloc supplies them: here over one block, of
 * which nothing is given back. docs/C.md has what they owe. */
#include <stdalign.h>
#include <stdbool.h>
#include <stddef.h>
#include <string.h>

struct tried {
    bool made;
    void *block;
};

static alignas(16) unsigned char memory[1 << 23];
static size_t used;

struct tried rattle_alloc(size_t size, size_t align) {
    (void)align; /* it divides 16 */
    size_t whole = size == 0 ? 16 : (size + 15) / 16 * 16;
    if (whole < size || whole > sizeof memory - used) return (struct tried){false, memory};
    used += whole;
    return (struct tried){true, memory + used - whole};
}

struct tried rattle_realloc(void *block, size_t kept, size_t size, size_t align) {
    struct tried moved = rattle_alloc(size, align);
    if (moved.made) memcpy(moved.block, block, kept);
    return moved;
}

void rattle_dealloc(void *block) { (void)block; }
