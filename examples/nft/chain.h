/* The memory of this example: a chain of the kernel's packet filter, of which each rule is a slot. The kernel tries the
 * rules of a chain one behind the other, and the first that matches decides, as the slots of a TCAM do. */
#ifndef CHAIN_H
#define CHAIN_H

#include "tcam.h"

#define SLOTS 48

/* The results that this memory knows: of a packet that a program sends. */
#define REFUSED 0
#define SENT 1

/* Whether the commands of `nft` can be given here. */
bool chain_open(void);

/* Makes the chain in this network namespace, with rules that match nothing, on the way of all packets that go out. A
 * packet that no rule matches is refused. */
bool chain_make(void);

/* Makes a write, which is one transaction of the kernel's: a packet meets the rule that was there or the new one. */
bool chain_put(const struct tcam_write *write);

/* Whether the chain has the rules of all slots, in their order, and no other: by what the kernel tells of it. */
bool chain_is_whole(void);

/* Takes the chain away. */
bool chain_drop(void);

#endif
