#define _POSIX_C_SOURCE 200809L /* for open_memstream */
#include "trace_log.h"

#include <inttypes.h>
#include <stdlib.h>

void trace_begin(struct trace_log *log, FILE *out, const char *family, uint32_t slots) {
    *log = (struct trace_log){.out = out};
    fprintf(out, "{\"family\":\"%s\",\"mode\":\"cover\",\"slots\":%" PRIu32 "}\n", family, slots);
}

/* The commands are kept back until the driver writes: a call that it refuses may have asked for what can't be meant, as a
 * route that is there already, and has one line. */
void trace_commit(struct trace_log *log) {
    log->commits++;
    log->commands = open_memstream(&log->text, &log->size);
    if (log->commands) fprintf(log->commands, "{\"commit\":%" PRIu32 "}\n", log->commits);
}

static void end_commands(struct trace_log *log, int shown) {
    if (!log->commands) return;
    fclose(log->commands);
    log->commands = NULL;
    if (shown) fwrite(log->text, 1, log->size, log->out);
    free(log->text);
}

void trace_add(struct trace_log *log, const struct trace_rule *rule) {
    if (!log->commands) return;
    char protocol[12] = "null";
    if (rule->protocol >= 0) snprintf(protocol, sizeof protocol, "%d", rule->protocol);
    fprintf(log->commands, "{\"add\":[%" PRIu64 ",%" PRIu32 ",%u,%" PRIu32 ",%u,%s,%u,%u,%u,%u,%" PRIu32 "]}\n", rule->priority,
            rule->source, rule->source_length, rule->destination, rule->destination_length, protocol, rule->source_ports[0],
            rule->source_ports[1], rule->destination_ports[0], rule->destination_ports[1], rule->result);
}

void trace_set(struct trace_log *log, uint64_t priority, uint32_t result) {
    if (log->commands) fprintf(log->commands, "{\"set\":[%" PRIu64 ",%" PRIu32 "]}\n", priority, result);
}

void trace_del(struct trace_log *log, uint64_t priority) {
    if (log->commands) fprintf(log->commands, "{\"del\":%" PRIu64 "}\n", priority);
}

/* a write more, behind the commands */
static void count_write(struct trace_log *log) {
    end_commands(log, 1);
    log->writes++;
}

void trace_put(struct trace_log *log, uint32_t slot, const struct trace_entry *entry) {
    count_write(log);
    fprintf(log->out, "{\"put\":[");
    for (int lane = 0; lane < 5; lane++) fprintf(log->out, "%" PRIu32 ",", entry->value[lane]);
    for (int lane = 0; lane < 5; lane++) fprintf(log->out, "%" PRIu32 ",", entry->mask[lane]);
    fprintf(log->out, "%" PRIu64 ",%" PRIu32 "],\"slot\":%" PRIu32 "}\n", entry->priority, entry->result, slot);
}

void trace_erase(struct trace_log *log, uint32_t slot) {
    count_write(log);
    fprintf(log->out, "{\"erase\":%" PRIu32 "}\n", slot);
}

void trace_move(struct trace_log *log, uint32_t from, uint32_t to, uint32_t count) {
    count_write(log);
    fprintf(log->out, "{\"move\":[%" PRIu32 ",%" PRIu32 ",%" PRIu32 "]}\n", from, to, count);
}

void trace_word(struct trace_log *log, enum trace_table table, uint16_t port, uint16_t word) {
    count_write(log);
    const char *name = table == TRACE_SOURCE ? "src" : "dst";
    fprintf(log->out, "{\"port\":%u,\"table\":\"%s\",\"word\":%u}\n", port, name, word);
}

void trace_done(struct trace_log *log) {
    end_commands(log, 1);
    fprintf(log->out, "{\"done\":%" PRIu32 "}\n", log->commits);
}

void trace_failed(struct trace_log *log) {
    const char *how = log->commands ? "refused" : "back"; /* nothing was written, or it was undone */
    end_commands(log, 0);
    fprintf(log->out, "{\"%s\":%" PRIu32 "}\n", how, log->commits);
}

void trace_end(struct trace_log *log) {
    fprintf(log->out, "{\"end\":%" PRIu64 "}\n", log->writes);
    fflush(log->out);
}
