/* Ways to break a sound device, for each clause of "sound" in documents 01 and 02: after any of them it is not sound for
   certain. */
#ifndef GARBAGE_BREAK_H
#define GARBAGE_BREAK_H

#include "garbage.h"

/* A way is given a number that was drawn. It gives 0 where the device has nothing that it could break. */
struct way {
    const char *name;
    int (*apply)(struct device *, uint64_t);
};

#define WAY(name) {#name, name}

/* Each list ends with a way that has no name. */
extern const struct way configuration_ways[];
extern const struct way record_ways[];
extern const struct way place_ways[];
extern const struct way region_ways[];

/* A place below n, by a number that was drawn; n is not 0. */
static inline size_t pick(uint64_t drawn, size_t n)
{
    return drawn % n;
}

#endif
