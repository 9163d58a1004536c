/* Damage that may leave a device sound or not. */
#include <string.h>

#include "garbage.h"

#define ONE(name) {offsetof(struct viommu_state, name), sizeof ((struct viommu_state *)0)->name, 1}
#define MANY(name, n) {offsetof(struct viommu_state, name), sizeof ((struct viommu_state *)0)->name / (n), (n)}

const struct field fields[] = {
    ONE(settings.guests),
    MANY(settings.shares, VIOMMU_GUESTS),
    MANY(settings.firsts, VIOMMU_GUESTS),
    MANY(settings.lasts, VIOMMU_GUESTS),
    ONE(settings.mask),
    ONE(settings.input.start),
    ONE(settings.input.end),
    ONE(settings.domains.start),
    ONE(settings.domains.end),
    ONE(listed),
    MANY(endpoints, VIOMMU_ENDPOINTS),
    MANY(owners, VIOMMU_ENDPOINTS),
    MANY(attached, VIOMMU_ENDPOINTS),
    MANY(domains, VIOMMU_ENDPOINTS),
    MANY(regions, VIOMMU_REGION_PLACES),
    ONE(live),
    MANY(logged, VIOMMU_GUESTS),
    MANY(lost, VIOMMU_GUESTS),
    MANY(reasons, VIOMMU_FAULT_PLACES),
    MANY(flags, VIOMMU_FAULT_PLACES),
    MANY(sources, VIOMMU_FAULT_PLACES),
    MANY(addresses, VIOMMU_FAULT_PLACES),
    {0, 0, 0},
};

#define FIELDS (sizeof fields / sizeof *fields - 1)

/* The low bytes of the number at an element of the field; x86-64 has the low byte first. */
static void store(struct viommu_state *s, struct field f, size_t i, uint64_t number)
{
    memcpy((uint8_t *)s + f.offset + i * f.width, &number, f.width);
}

/* Another number for one of so many bits: near to it, at a limit or any, with one bit changed, or with its low half alone. */
static uint64_t changed(struct random *r, uint64_t old, size_t bits)
{
    switch (below(r, 4)) {
    case 0: return old + below(r, 5) - 2;
    case 1: return edge(r);
    case 2: return old ^ (uint64_t)1 << below(r, bits);
    default: return old ^ draw(r) << bits / 2;
    }
}

/* One element of a field of the state, or one word of the table, becomes another number. */
void damage_one_field(struct random *r, struct device *d)
{
    size_t which = below(r, FIELDS + 4);
    if (which < FIELDS) {
        struct field f = fields[which];
        size_t i = below(r, f.count);
        uint64_t old = 0;
        memcpy(&old, (uint8_t *)&d->state + f.offset + i * f.width, f.width);
        store(&d->state, f, i, changed(r, old, 8 * f.width));
        return;
    }
    size_t words = VIOMMU_RECORD_WORDS * (d->state.live <= VIOMMU_RECORDS ? d->state.live : VIOMMU_RECORDS);
    size_t i = words > 0 && !once_in(r, 4) ? below(r, words) : below(r, VIOMMU_TABLE_WORDS);
    d->table[i] = changed(r, d->table[i], 64);
}

/* A table that is not of 1,280 words, or now and then is. */
void damage_length(struct random *r, struct device *d)
{
    static const size_t lengths[] = {0, VIOMMU_TABLE_WORDS - 1, VIOMMU_TABLE_WORDS + 1};
    size_t i = below(r, 4);
    d->words = i < 3 ? lengths[i] : below(r, TABLE_ROOM + 1);
}

/* A state of random bytes, of numbers at limits, or of zeros; a table of random words, or as it was. */
void damage_all(struct random *r, struct device *d)
{
    memset(&d->state, 0, sizeof d->state);
    if (once_in(r, 2))
        scatter(r, &d->state, sizeof d->state);
    else if (!once_in(r, 8))
        for (size_t f = 0; f < FIELDS; f++)
            for (size_t i = 0; i < fields[f].count; i++)
                store(&d->state, fields[f], i, edge(r));
    if (once_in(r, 2))
        d->state.settings.guests = below(r, 6);
    if (once_in(r, 2))
        scatter(r, d->table, sizeof d->table);
}
