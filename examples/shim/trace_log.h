/* Logs what a driver of IPv4 does to a TCAM, as lines for `tcam judge`. One writer: where several threads call the driver,
 * each call here stands under the lock of the driver's own write. What can't be written leaves a trace that isn't whole,
 * which the judge says. */
#ifndef TRACE_LOG_H
#define TRACE_LOG_H

#include <stdint.h>
#include <stdio.h>

struct trace_log {
    FILE *out;
    FILE *commands; /* those of the commit under way, until its first write is logged */
    char *text;
    size_t size;
    uint32_t commits;
    uint64_t writes;
};

/* a rule as its owner means it */
struct trace_rule {
    uint64_t priority; /* below 2^40; the greater one decides. Of a route its length << 32 | its address */
    uint32_t source, destination;
    unsigned source_length, destination_length;
    int protocol; /* 0 to 255, or -1 for any */
    uint16_t source_ports[2], destination_ports[2]; /* the first and the last */
    uint32_t result;
};

/* An entry as the chip compares it: source, destination, source port << 16 | destination port, protocol << 24, and the words
 * of both ports, of a chip that translates them. */
struct trace_entry {
    uint32_t value[5], mask[5];
    uint64_t priority; /* of the rule that it is for, or 0 where the log is judged with --results */
    uint32_t result;
};

enum trace_table { TRACE_SOURCE, TRACE_DESTINATION };

/* the head: `family` is "route" or "acl", and the chip has so many slots, of which the least one that matches answers */
void trace_begin(struct trace_log *log, FILE *out, const char *family, uint32_t slots);

/* before the driver's own call, and then what it is to change */
void trace_commit(struct trace_log *log);
void trace_add(struct trace_log *log, const struct trace_rule *rule);
void trace_set(struct trace_log *log, uint64_t priority, uint32_t result);
void trace_del(struct trace_log *log, uint64_t priority);

/* behind each write that was made */
void trace_put(struct trace_log *log, uint32_t slot, const struct trace_entry *entry);
void trace_erase(struct trace_log *log, uint32_t slot);
void trace_move(struct trace_log *log, uint32_t from, uint32_t to, uint32_t count);
void trace_word(struct trace_log *log, enum trace_table table, uint16_t port, uint16_t word);

/* behind the driver's call: it succeeded; or it failed, and all is as before */
void trace_done(struct trace_log *log);
void trace_failed(struct trace_log *log);

/* the last line */
void trace_end(struct trace_log *log);

#endif
