/* The number that document 01 asks for, and the value beside it. */
#include "garbage.h"

/* The lengths of a request's readable and writable parts, by type. */
static const size_t readable_lengths[] = {0, 20, 20, 36, 28, 72};
static const size_t writable_lengths[] = {0, 4, 4, 4, 4, 132};

/* "4 (below 4 bytes), 3, 4 (lengths)" */
static unsigned request_number(const struct call *c)
{
    uint8_t type = c->readable[0];
    if (c->readable_bytes < 4)
        return VIOMMU_WRONG_LENGTH;
    if (type < 1 || 5 < type)
        return VIOMMU_UNKNOWN_TYPE;
    if (c->readable_bytes != readable_lengths[type] || c->writable_bytes != writable_lengths[type])
        return VIOMMU_WRONG_LENGTH;
    return VIOMMU_DONE;
}

/* The place of the access's endpoint, or listed where it is not listed. */
static size_t place_of(const struct call *c, const struct viommu_state *s)
{
    size_t i = 0;
    while (i < s->listed && s->endpoints[i] != c->endpoint.number)
        i++;
    return i;
}

/* The record of the owner's and endpoint's domain that covers the address and has the matching flag, or null. */
static const uint64_t *permitting(const struct call *c, const struct device *d)
{
    size_t i = place_of(c, &d->state);
    uint64_t key = ((uint64_t)d->state.owners[i] << 32) + d->state.domains[i];
    uint64_t flag = c->kind == VIOMMU_READ ? VIOMMU_FLAG_READ : VIOMMU_FLAG_WRITE;
    for (size_t n = 0; n < d->state.live; n++) {
        const uint64_t *w = d->table + VIOMMU_RECORD_WORDS * n;
        if (w[0] == key && w[1] <= c->address && c->address <= w[2] && (w[4] & flag) != 0)
            return w;
    }
    return NULL;
}

/* "Access: 2, 6, then 7 or 8." */
static unsigned access_number(const struct call *c, const struct device *d)
{
    size_t i = place_of(c, &d->state);
    if (i == d->state.listed)
        return VIOMMU_UNKNOWN_ENDPOINT;
    if (!d->state.attached[i])
        return VIOMMU_UNATTACHED;
    return permitting(c, d) ? VIOMMU_DONE : VIOMMU_UNMAPPED;
}

/* The number on sound state and table, with a guest number below the guest count. */
static unsigned sound_number(const struct call *c, const struct device *d)
{
    if (c->entry == REQUEST)
        return request_number(c);
    return c->entry == ACCESS ? access_number(c, d) : VIOMMU_DONE;
}

unsigned wanted_number(const struct call *c, const struct device *d, enum soundness soundness)
{
    if (c->entry != ACCESS && c->guest.number >= d->state.settings.guests)
        return VIOMMU_NO_SUCH_GUEST;
    return soundness == SOUND ? sound_number(c, d) : VIOMMU_UNSOUND;
}

/* The used length, the address, or the fetched count: the smaller of the faults held and those that fit whole. */
uint64_t wanted_value(const struct call *c, const struct device *d)
{
    if (c->entry == REQUEST)
        return writable_lengths[c->readable[0]];
    if (c->entry == ACCESS) {
        const uint64_t *w = permitting(c, d);
        return c->address - w[1] + w[3];
    }
    if (c->entry == FETCH) {
        size_t held = d->state.logged[c->guest.number];
        size_t fit = c->writable_bytes / VIOMMU_FAULT_BYTES;
        return held < fit ? held : fit;
    }
    return 0;
}
