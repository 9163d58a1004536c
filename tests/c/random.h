/* Seeded numbers, by xorshift64*: a seed gives the same run on every machine. */
#ifndef RANDOM_H
#define RANDOM_H

#include <stddef.h>
#include <stdint.h>

struct random {
    uint64_t word; /* never 0 */
};

static inline struct random seeded(uint64_t seed)
{
    struct random r = {seed * 2 + 1};
    return r;
}

static inline uint64_t draw(struct random *r)
{
    r->word ^= r->word >> 12;
    r->word ^= r->word << 25;
    r->word ^= r->word >> 27;
    return r->word * 0x2545f4914f6cdd1d;
}

/* A number below n, which is not 0. */
static inline uint64_t below(struct random *r, uint64_t n)
{
    return (draw(r) >> 11) % n;
}

/* Once in n times. */
static inline int once_in(struct random *r, uint64_t n)
{
    return below(r, n) == 0;
}

/* One of the numbers at which tests of limits go wrong, or any at all. */
static inline uint64_t edge(struct random *r)
{
    static const uint64_t edges[] = {0, 1, 2, 4, 5, 16, 17, 32, 33, 256, 257, 65535, 65536, UINT32_MAX, UINT64_MAX - 1, UINT64_MAX};
    return once_in(r, 2) ? edges[below(r, sizeof edges / sizeof *edges)] : draw(r);
}

static inline void scatter(struct random *r, void *place, size_t bytes)
{
    uint64_t word = 0;
    for (size_t i = 0; i < bytes; i++) {
        word = i % 8 ? word >> 8 : draw(r);
        ((uint8_t *)place)[i] = (uint8_t)word;
    }
}

#endif
