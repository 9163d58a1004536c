/* "State and table are sound when:" each clause of documents 01 and 02 holds. */
#include <string.h>

#include "garbage.h"

#define RECORD(d, i) ((d)->table + VIOMMU_RECORD_WORDS * (i))

/* "the configuration is good" */
static int configuration_good(const struct viommu_state *s)
{
    struct lists l = {
        .endpoint_count = s->listed, .owner_count = s->listed, .region_words = VIOMMU_ENDPOINT_REGION_WORDS * s->listed};
    memcpy(l.endpoints, s->endpoints, sizeof s->endpoints);
    memcpy(l.owners, s->owners, sizeof s->owners);
    memcpy(l.regions, s->regions, sizeof s->regions);
    return s->listed <= VIOMMU_ENDPOINTS && good(&s->settings, &l);
}

/* "Guest and endpoint places not in use are zero too" */
static int unused_zero(const struct viommu_state *s)
{
    for (size_t g = s->settings.guests; g < VIOMMU_GUESTS; g++)
        if (s->settings.shares[g] != 0 || s->settings.firsts[g] != 0 || s->settings.lasts[g] != 0 || s->logged[g] != 0 ||
            s->lost[g] != 0)
            return 0;
    for (size_t i = s->listed; i < VIOMMU_ENDPOINTS; i++)
        if (s->endpoints[i] != 0 || s->owners[i] != 0 || s->attached[i] != 0 || s->domains[i] != 0)
            return 0;
    return 1;
}

/* "unused region places are zero" */
static int unused_regions_zero(const struct viommu_state *s)
{
    for (size_t i = 0; i < VIOMMU_ENDPOINTS; i++) {
        struct viommu_regions q = regions_at(s, i);
        size_t used = i < s->listed ? region_words_used(&q) : 0;
        for (size_t k = used; k < VIOMMU_ENDPOINT_REGION_WORDS; k++)
            if (s->regions[VIOMMU_ENDPOINT_REGION_WORDS * i + k] != 0)
                return 0;
    }
    return 1;
}

/* "every attached endpoint's domain lies in the domain range and every unattached one holds 0"; a flag is 0 or 1 */
static int attachments_good(const struct viommu_state *s)
{
    for (size_t i = 0; i < s->listed; i++) {
        if (s->attached[i] > 1 || (s->attached[i] == 0 && s->domains[i] != 0))
            return 0;
        if (s->attached[i] == 1 && (s->domains[i] < s->settings.domains.start || s->settings.domains.end < s->domains[i]))
            return 0;
    }
    return 1;
}

/* "A domain exists for a guest exactly while at least one of its endpoints is attached to it." */
static int exists(const struct viommu_state *s, uint64_t guest, uint64_t domain)
{
    for (size_t i = 0; i < s->listed; i++)
        if (s->attached[i] == 1 && s->owners[i] == guest && s->domains[i] == domain)
            return 1;
    return 0;
}

/* "overlapping a region of any endpoint in the domain": whether the record does. */
static int on_region(const struct viommu_state *s, const uint64_t *w)
{
    for (size_t i = 0; i < s->listed; i++) {
        struct viommu_regions q = regions_at(s, i);
        if (s->attached[i] != 1 || ((uint64_t)s->owners[i] << 32) + s->domains[i] != w[0])
            continue;
        for (size_t j = 0; j < q.count; j++)
            if (ranges_meet(w[1], w[2], q.region[j].start, q.region[j].end))
                return 1;
    }
    return 0;
}

/* "every record would pass steps 1 to 6 of MAP" */
static int record_good(const struct viommu_state *s, const uint64_t *w)
{
    uint64_t guest = w[0] >> 32, granularity = s->settings.mask & -s->settings.mask;
    if (guest >= s->settings.guests || !exists(s, guest, w[0] & UINT32_MAX))
        return 0;
    if (w[4] > (VIOMMU_FLAG_READ | VIOMMU_FLAG_WRITE) || w[2] <= w[1])
        return 0;
    if (w[1] % granularity != 0 || w[3] % granularity != 0 || (w[2] + 1) % granularity != 0)
        return 0;
    if (w[1] < s->settings.input.start || s->settings.input.end < w[2])
        return 0;
    return s->settings.firsts[guest] <= w[3] && w[3] <= s->settings.lasts[guest] &&
           w[2] - w[1] <= s->settings.lasts[guest] - w[3];
}

/* "ascending by first word, then by virt_start"; "no two records of one guest and domain overlap" */
static int pairs_good(const struct device *d)
{
    for (size_t j = 1; j < d->state.live; j++) {
        const uint64_t *b = RECORD(d, j), *before = RECORD(d, j - 1);
        if (before[0] > b[0] || (before[0] == b[0] && before[1] >= b[1]))
            return 0;
        for (size_t i = 0; i < j; i++) {
            const uint64_t *a = RECORD(d, i);
            if (a[0] == b[0] && a[1] <= b[2] && b[1] <= a[2])
                return 0;
        }
    }
    return 1;
}

/* "the live count is at most 256"; "all other words are zero"; "no guest holds more than its share" */
static int records_good(const struct device *d)
{
    uint64_t held[VIOMMU_GUESTS] = {0};
    if (d->state.live > VIOMMU_RECORDS)
        return 0;
    for (size_t i = 0; i < d->state.live; i++) {
        if (!record_good(&d->state, RECORD(d, i)) || on_region(&d->state, RECORD(d, i)))
            return 0;
        held[RECORD(d, i)[0] >> 32]++;
    }
    for (size_t g = 0; g < VIOMMU_GUESTS; g++)
        if (held[g] > d->state.settings.shares[g])
            return 0;
    for (size_t i = VIOMMU_RECORD_WORDS * d->state.live; i < VIOMMU_TABLE_WORDS; i++)
        if (d->table[i] != 0)
            return 0;
    return pairs_good(d);
}

/* "each logged fault has the form below and names an endpoint of its guest" */
static int fault_good(const struct viommu_state *s, size_t guest, size_t place)
{
    int own = 0;
    for (size_t i = 0; i < s->listed; i++)
        own |= s->endpoints[i] == s->sources[place] && s->owners[i] == guest;
    return own && (s->reasons[place] == 1 || s->reasons[place] == 2) && (s->flags[place] == 257 || s->flags[place] == 258);
}

/* "log counts are at most 16, lost counts at most 65,535, unused places zero" */
static int logs_good(const struct viommu_state *s)
{
    for (size_t g = 0; g < VIOMMU_GUESTS; g++) {
        if (s->logged[g] > VIOMMU_FAULTS || s->lost[g] > VIOMMU_LOST_LIMIT)
            return 0;
        for (size_t i = 0; i < VIOMMU_FAULTS; i++) {
            size_t p = VIOMMU_FAULTS * g + i;
            int zero = s->reasons[p] == 0 && s->flags[p] == 0 && s->sources[p] == 0 && s->addresses[p] == 0;
            if (i < s->logged[g] ? !fault_good(s, g, p) : !zero)
                return 0;
        }
    }
    return 1;
}

enum soundness soundness_of(const struct device *d)
{
    const struct viommu_state *s = &d->state;
    int sound = d->words == VIOMMU_TABLE_WORDS && configuration_good(s) && unused_zero(s) && unused_regions_zero(s) &&
                attachments_good(s) && records_good(d) && logs_good(s);
    return sound ? SOUND : BROKEN;
}
