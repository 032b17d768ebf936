#include "registers.h"

#include <string.h>

static void make(struct registers *registers, const struct tcam_write *write) {
    switch (write->kind) {
    case TCAM_PUT: {
        struct slot *slot = &registers->slots[write->slot];
        memcpy(slot->value, write->value, sizeof slot->value);
        memcpy(slot->mask, write->mask, sizeof slot->mask);
        slot->result = write->result;
        slot->tag = write->tag;
        slot->used = true;
        break;
    }
    case TCAM_ERASE: registers->slots[write->slot].used = false; break;
    case TCAM_WORD: registers->tables[write->field][write->port] = (uint16_t)write->word; break;
    default: break;
    }
}

bool registers_put(struct registers *registers, const struct tcam_write *write) {
    registers->calls++;
    if (write->kind != TCAM_WORD && registers->broken == write->slot + 1) return false;
    bool fails = registers->calls % 7 == 0;
    if (!fails || registers->calls % 2 == 0) make(registers, write);
    return !fails;
}

static bool hits(const struct slot *slot, const uint32_t word[TCAM_LANES]) {
    for (int lane = 0; lane < TCAM_LANES; lane++)
        if ((word[lane] ^ slot->value[lane]) & slot->mask[lane]) return false;
    return slot->used;
}

void registers_translate(const struct registers *registers, const struct tcam_key *key, uint32_t word[TCAM_LANES]) {
    memset(word, 0, TCAM_LANES * sizeof *word);
    word[0] = key->source;
    word[4] = key->destination;
    word[8] = (uint32_t)key->source_port << 16 | key->destination_port;
    word[9] = (uint32_t)key->protocol << 24;
    word[10] = (uint32_t)registers->tables[TCAM_SOURCE][key->source_port] << 16 |
               registers->tables[TCAM_DESTINATION][key->destination_port];
}

int64_t registers_search(const struct registers *registers, const uint32_t word[TCAM_LANES]) {
    for (int slot = 0; slot < SLOTS; slot++)
        if (hits(&registers->slots[slot], word)) return registers->slots[slot].result;
    return -1;
}

int64_t registers_answer(const struct registers *registers, const struct tcam_key *key) {
    uint32_t word[TCAM_LANES];
    registers_translate(registers, key, word);
    return registers_search(registers, word);
}
