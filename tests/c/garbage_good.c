/* "Configuration is good when:" each clause of documents 01 and 02 holds. */
#include "garbage.h"

/* "each window's first ≤ last; no two windows share an address; shares sum to at most 256" */
static int guests_good(const struct viommu_settings *s)
{
    uint64_t shares = 0;
    for (size_t g = 0; g < s->guests; g++) {
        shares += s->shares[g];
        if (s->firsts[g] > s->lasts[g])
            return 0;
        for (size_t h = 0; h < g; h++)
            if (s->firsts[g] <= s->lasts[h] && s->firsts[h] <= s->lasts[g])
                return 0;
    }
    return shares <= VIOMMU_RECORDS;
}

/* "the lists have equal length of at most 32; owners are below the guest count; no endpoint number appears twice" */
static int lists_good(const struct lists *l, size_t guests)
{
    if (l->endpoint_count != l->owner_count || l->endpoint_count > VIOMMU_ENDPOINTS)
        return 0;
    for (size_t i = 0; i < l->endpoint_count; i++) {
        if (l->owners[i] >= guests)
            return 0;
        for (size_t j = 0; j < i; j++)
            if (l->endpoints[i] == l->endpoints[j])
                return 0;
    }
    return 1;
}

/* "up to four reserved regions, at most one of them MSI, none overlapping"; "a subtype above 1, or start > end, is 5" */
static int regions_good(const struct viommu_regions *q)
{
    size_t msi = 0;
    if (q->count > VIOMMU_REGIONS)
        return 0;
    for (size_t j = 0; j < q->count; j++) {
        const struct viommu_region *one = &q->region[j];
        msi += one->subtype == VIOMMU_REGION_MSI;
        if (one->subtype > VIOMMU_REGION_MSI || one->start > one->end || msi > 1)
            return 0;
        for (size_t k = 0; k < j; k++)
            if (ranges_meet(one->start, one->end, q->region[k].start, q->region[k].end))
                return 0;
    }
    return 1;
}

/* Thirteen words for each endpoint, and its regions good. */
static int all_regions_good(const struct lists *l)
{
    if (l->region_words != VIOMMU_ENDPOINT_REGION_WORDS * l->endpoint_count)
        return 0;
    for (size_t i = 0; i < l->endpoint_count; i++)
        if (!regions_good(&l->regions[i]))
            return 0;
    return 1;
}

/* "the guest count is 1 to 4; the mask is not zero; both ranges have start ≤ end" */
int good(const struct viommu_settings *s, const struct lists *l)
{
    if (s->guests < 1 || VIOMMU_GUESTS < s->guests || s->mask == 0)
        return 0;
    if (s->input.start > s->input.end || s->domains.start > s->domains.end)
        return 0;
    return guests_good(s) && lists_good(l, s->guests) && all_regions_good(l);
}
