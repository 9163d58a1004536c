/* Ways to break what "sound" asks of reserved regions. */
#include "garbage_break.h"

#define WORDS(d, i) ((d)->state.regions + VIOMMU_ENDPOINT_REGION_WORDS * (i))
#define REGION(d, i, j) (WORDS(d, i) + 1 + VIOMMU_REGION_WORDS * (j))

/* The place of a listed endpoint with at least so many regions, or VIOMMU_ENDPOINTS where the one drawn has not. */
static size_t with_regions(const struct device *d, uint64_t drawn, size_t least)
{
    size_t i = d->state.listed > 0 ? pick(drawn >> 8, d->state.listed) : VIOMMU_ENDPOINTS;
    return i < VIOMMU_ENDPOINTS && WORDS(d, i)[0] >= least ? i : VIOMMU_ENDPOINTS;
}

/* "up to four reserved regions" */
static int five_regions(struct device *d, uint64_t drawn)
{
    size_t i = with_regions(d, drawn, 0);
    if (i == VIOMMU_ENDPOINTS)
        return 0;
    WORDS(d, i)[0] = 5 + ((drawn & 1) ? 0 : drawn >> 16);
    return 1;
}

/* "a subtype above 1 [..] is 5" */
static int subtype_2(struct device *d, uint64_t drawn)
{
    size_t i = with_regions(d, drawn, 1);
    if (i == VIOMMU_ENDPOINTS)
        return 0;
    REGION(d, i, pick(drawn >> 16, WORDS(d, i)[0]))[0] |= (uint64_t)2 << (drawn & 0x1f);
    return 1;
}

/* "start > end, is 5" */
static int region_upside_down(struct device *d, uint64_t drawn)
{
    size_t i = with_regions(d, drawn, 1);
    if (i == VIOMMU_ENDPOINTS)
        return 0;
    uint64_t *w = REGION(d, i, pick(drawn >> 16, WORDS(d, i)[0]));
    w[1] = w[2] + 1;
    return w[2] < UINT64_MAX;
}

/* "at most one of them MSI" */
static int two_msi(struct device *d, uint64_t drawn)
{
    size_t i = with_regions(d, drawn, 2);
    if (i == VIOMMU_ENDPOINTS)
        return 0;
    size_t j = pick(drawn >> 16, WORDS(d, i)[0]);
    REGION(d, i, j)[0] = VIOMMU_REGION_MSI;
    REGION(d, i, (j + 1) % WORDS(d, i)[0])[0] = VIOMMU_REGION_MSI;
    return 1;
}

/* "none overlapping": one ends where another starts */
static int regions_share(struct device *d, uint64_t drawn)
{
    size_t i = with_regions(d, drawn, 2);
    if (i == VIOMMU_ENDPOINTS)
        return 0;
    size_t j = pick(drawn >> 16, WORDS(d, i)[0]);
    uint64_t *w = REGION(d, i, j), *other = REGION(d, i, (j + 1) % WORDS(d, i)[0]);
    if (w[1] > other[1])
        return 0;
    w[2] = other[1];
    return 1;
}

/* "unused region places are zero" */
static int unused_region_word(struct device *d, uint64_t drawn)
{
    size_t i = pick(drawn >> 8, VIOMMU_ENDPOINTS);
    size_t used = i < d->state.listed ? 1 + VIOMMU_REGION_WORDS * WORDS(d, i)[0] : 0;
    if (used == VIOMMU_ENDPOINT_REGION_WORDS)
        return 0;
    WORDS(d, i)[used + pick(drawn >> 16, VIOMMU_ENDPOINT_REGION_WORDS - used)] = (uint64_t)1 << (drawn & 0x3f);
    return 1;
}

/* "Soundness gains the same rule": the sole region of an endpoint in a record's domain reaches the record, from either side */
static int record_on_region(struct device *d, uint64_t drawn)
{
    size_t i = with_regions(d, drawn, 1);
    if (i == VIOMMU_ENDPOINTS || d->state.live == 0 || d->state.attached[i] != 1 || WORDS(d, i)[0] != 1)
        return 0;
    uint64_t key = ((uint64_t)d->state.owners[i] << 32) + d->state.domains[i];
    for (size_t n = 0; n < d->state.live; n++) {
        const uint64_t *w = d->table + VIOMMU_RECORD_WORDS * n;
        if (w[0] == key) {
            REGION(d, i, 0)[1] = (drawn & 1) ? w[2] : 0;
            REGION(d, i, 0)[2] = (drawn & 1) ? UINT64_MAX : w[1];
            return 1;
        }
    }
    return 0;
}

const struct way region_ways[] = {
    WAY(five_regions),
    WAY(subtype_2),
    WAY(region_upside_down),
    WAY(two_msi),
    WAY(regions_share),
    WAY(unused_region_word),
    WAY(record_on_region),
    {NULL, NULL},
};
