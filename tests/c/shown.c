/* A small device, sums of its numbers, and whether two states are the same. */
#include "shown.h"

#include "expect.h"
#include "regions.h"

#include <string.h>

struct viommu_settings shown_settings(void)
{
    return (struct viommu_settings){
        .guests = 2,
        .shares = {4, 4},
        .firsts = {0x80000000, 0x90000000},
        .lasts = {0x8fffffff, 0x9fffffff},
        .mask = 0x1000,
        .input = {.start = 0, .end = 0xffffffff},
        .domains = {.start = 1, .end = 15},
    };
}

struct viommu_state shown_start(uint64_t table[VIOMMU_TABLE_WORDS])
{
    static const uint32_t endpoints[] = {8, 9};
    static const uint8_t owners[] = {0, 1};
    struct viommu_set_up_given given =
        viommu_set_up(shown_settings(), endpoints, 2, owners, 2, no_regions, REGION_WORDS(2), table, VIOMMU_TABLE_WORDS);
    EXPECT(given.number == 0);
    return given.state;
}

/* The sum of an array's numbers, whatever their width. */
#define SUM(total, array)                                                 \
    for (size_t i = 0; i < sizeof(array) / sizeof((array)[0]); i++) {     \
        (total) += (array)[i];                                            \
    }

uint64_t sum_state(const struct viommu_state *s)
{
    uint64_t total = s->listed + s->live;
    total += s->settings.guests + s->settings.mask;
    total += s->settings.input.start + s->settings.input.end;
    total += (uint64_t)s->settings.domains.start + s->settings.domains.end;
    SUM(total, s->settings.shares)
    SUM(total, s->settings.firsts)
    SUM(total, s->settings.lasts)
    SUM(total, s->endpoints)
    SUM(total, s->owners)
    SUM(total, s->attached)
    SUM(total, s->domains)
    SUM(total, s->regions)
    SUM(total, s->logged)
    SUM(total, s->lost)
    SUM(total, s->reasons)
    SUM(total, s->flags)
    SUM(total, s->sources)
    SUM(total, s->addresses)
    return total;
}

uint64_t sum_words(const uint64_t *words, size_t count)
{
    uint64_t total = 0;
    for (size_t i = 0; i < count; i++) {
        total += words[i];
    }
    return total;
}

/* Whether two arrays of numbers hold the same; arrays have no padding. */
#define SAME(x, y) (memcmp((x), (y), sizeof(x)) == 0)

/* Whether every number of two settings is the same. */
static int same_settings(const struct viommu_settings *a, const struct viommu_settings *b)
{
    return a->guests == b->guests && SAME(a->shares, b->shares) && SAME(a->firsts, b->firsts) &&
           SAME(a->lasts, b->lasts) && a->mask == b->mask && a->input.start == b->input.start &&
           a->input.end == b->input.end && a->domains.start == b->domains.start &&
           a->domains.end == b->domains.end;
}

int same_state(const struct viommu_state *a, const struct viommu_state *b)
{
    return same_settings(&a->settings, &b->settings) && a->listed == b->listed &&
           SAME(a->endpoints, b->endpoints) && SAME(a->owners, b->owners) &&
           SAME(a->attached, b->attached) && SAME(a->domains, b->domains) &&
           SAME(a->regions, b->regions) && a->live == b->live && SAME(a->logged, b->logged) &&
           SAME(a->lost, b->lost) && SAME(a->reasons, b->reasons) && SAME(a->flags, b->flags) &&
           SAME(a->sources, b->sources) && SAME(a->addresses, b->addresses);
}

int zero_state(const struct viommu_state *s)
{
    static const struct viommu_state zero;
    return same_state(s, &zero);
}

void print_bytes(const uint8_t *bytes, size_t count)
{
    for (size_t i = 0; i < count; i++) {
        printf("%02x", bytes[i]);
    }
}
