/* What the files of the tries have in common. */
#ifndef TRIES_H
#define TRIES_H

#include "tcam.h"

#include <stdio.h>
#include <stdlib.h>

#define CHECK(holds) \
    do { \
        if (!(holds)) { \
            fprintf(stderr, "%s:%d: %s\n", __FILE__, __LINE__, #holds); \
            exit(1); \
        } \
    } while (0)

static inline bool same_tag(struct tcam_tag a, struct tcam_tag b) {
    return a.high == b.high && a.low_upper == b.low_upper && a.low_lower == b.low_lower;
}

/* Every wrong use that is answered by a code. */
void wrong_uses(void);

#endif
