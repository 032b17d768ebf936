#include "chain.h"

#include <dlfcn.h>
#include <inttypes.h>
#include <stdio.h>
#include <stdlib.h>
#include <string.h>

#define LINE 512
#define WORDS (SLOTS * 96 + LINE)

/* What is called of libnftables, the library behind the command `nft`, as its header declares it: so nobody needs that. */
struct nft_ctx;
static struct nft_ctx *context;
static int (*run_command)(struct nft_ctx *, const char *);
static const char *(*output)(struct nft_ctx *);
enum { HANDLE = 1 << 3, ECHO = 1 << 5 }; /* what it tells of a command */

bool chain_open(void) {
    struct nft_ctx *(*make)(uint32_t);
    int (*keep_output)(struct nft_ctx *);
    void (*set_output)(struct nft_ctx *, unsigned);
    void *library = dlopen("libnftables.so.1", RTLD_NOW);
    if (!library) return false;
    *(void **)&make = dlsym(library, "nft_ctx_new");
    *(void **)&keep_output = dlsym(library, "nft_ctx_buffer_output");
    *(void **)&set_output = dlsym(library, "nft_ctx_output_set_flags");
    *(void **)&run_command = dlsym(library, "nft_run_cmd_from_buffer");
    *(void **)&output = dlsym(library, "nft_ctx_get_output_buffer");
    if (!make || !keep_output || !set_output || !run_command || !output || !(context = make(0))) return false;
    set_output(context, HANDLE | ECHO);
    return keep_output(context) == 0;
}

/* Has commands made in one transaction, and gives each line that is told of them to `take`, where there is one. */
static bool command(const char *text, bool (*take)(const char *line)) {
    bool taken = run_command(context, text) == 0;
    const char *told = output(context);
    while (told && take) {
        taken = take(told) && taken;
        told = strchr(told, '\n');
        if (told) told++;
    }
    return taken;
}

/* What names the rule of a slot, which the kernel gives it. */
static uint64_t handles[SLOTS];

/* The handle in the line that tells of a slot's rule, and its slot, or 0. */
static uint64_t handle_in(const char *line, unsigned *slot) {
    const char *comment = strstr(line, "comment \"slot "), *handle = strstr(line, "# handle "), *end = strchr(line, '\n');
    if (!comment || !handle || !end || handle > end || comment > end) return 0;
    if (sscanf(comment, "comment \"slot %u\"", slot) != 1 || *slot >= SLOTS) return 0;
    return strtoull(handle + strlen("# handle "), NULL, 10);
}

/* A rule that was added: one that replaces another may have its handle or a new one. */
static bool take_handle(const char *line) {
    unsigned slot;
    uint64_t handle = strncmp(line, "delete", strlen("delete")) == 0 ? 0 : handle_in(line, &slot);
    if (handle > 0) handles[slot] = handle;
    return true;
}

bool chain_make(void) {
    static char text[WORDS];
    int used = snprintf(text, sizeof text, "add table ip tcam; add chain ip tcam slots { "
                                           "type filter hook output priority 0; policy drop; }");
    for (unsigned slot = 0; slot < SLOTS; slot++) {
        handles[slot] = 0;
        used += snprintf(text + used, sizeof text - (size_t)used, "; add rule ip tcam slots continue comment \"slot %u\"",
                         slot);
    }
    return command(text, take_handle) && chain_is_whole();
}

bool chain_drop(void) { return command("delete table ip tcam", NULL); }

/* Where a lane stands in a packet, as `nft` has it: the lanes that a rule of IPv4 tests by covers of port ranges. The
 * network header has the protocol and both addresses, and the transport header begins with both ports. */
static const struct {
    int lane;
    const char *place;
    int shift;
} places[] = {{0, "@nh,96,32", 0}, {4, "@nh,128,32", 0}, {8, "@th,0,32", 0}, {9, "@nh,72,8", 24}};

/* The test of an entry, and its result. */
static void entry_text(const struct tcam_write *write, char *text, size_t size) {
    size_t used = 0;
    for (size_t i = 0; i < sizeof places / sizeof *places; i++) {
        uint32_t value = write->value[places[i].lane] >> places[i].shift;
        uint32_t mask = write->mask[places[i].lane] >> places[i].shift;
        if (mask == 0) continue;
        used += (size_t)snprintf(text + used, size - used, "%s & 0x%" PRIx32 " == 0x%" PRIx32 " ", places[i].place,
                                 mask, value & mask);
    }
    snprintf(text + used, size - used, "%s", write->result == SENT ? "accept" : "drop");
}

bool chain_put(const struct tcam_write *write) {
    char entry[LINE / 2] = "continue", text[LINE];
    if (write->kind != TCAM_PUT && write->kind != TCAM_ERASE) return false;
    if (write->kind == TCAM_PUT) entry_text(write, entry, sizeof entry);
    snprintf(text, sizeof text, "replace rule ip tcam slots handle %" PRIu64 " %s comment \"slot %u\"",
             handles[write->slot], entry, (unsigned)write->slot);
    return command(text, take_handle);
}

static unsigned rules;

/* The rules come in their order, each with the handle that it is known by. */
static bool next_rule(const char *line) {
    unsigned slot;
    uint64_t handle = handle_in(line, &slot);
    return handle == 0 || (slot == rules++ && handle == handles[slot]);
}

bool chain_is_whole(void) {
    rules = 0;
    return command("list chain ip tcam slots", next_rule) && rules == SLOTS;
}
