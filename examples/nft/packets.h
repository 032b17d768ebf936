/* Look-ups by real packets: each is given to the kernel to send, which asks the chain. */
#ifndef PACKETS_H
#define PACKETS_H

#include "chain.h"

/* Readies this network namespace, whose one way out leads back to itself. */
bool packets_ready(void);

/* Sends a packet with these fields: SENT, REFUSED, or -1 where it isn't known. */
int packets_answer(const struct tcam_key *key);

#endif
