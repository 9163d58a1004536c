/* Ways to break what "sound" asks of attachments, logs, lost counts and unused places. */
#include "garbage_break.h"

/* "every attached endpoint's domain lies in the domain range" */
static int attached_outside(struct device *d, uint64_t drawn)
{
    if (d->state.listed == 0)
        return 0;
    size_t i = pick(drawn, d->state.listed);
    d->state.domains[i] = d->state.settings.domains.end + 1;
    return d->state.attached[i] == 1 && d->state.settings.domains.end < UINT32_MAX;
}

/* "and every unattached one holds 0" */
static int unattached_in_domain(struct device *d, uint64_t drawn)
{
    if (d->state.listed == 0)
        return 0;
    size_t i = pick(drawn, d->state.listed);
    d->state.domains[i] = 1 + (uint32_t)(drawn >> 40);
    return d->state.attached[i] == 0;
}

/* an attached flag is 0 or 1 (docs/DECISIONS.md, 2) */
static int attached_flag_2(struct device *d, uint64_t drawn)
{
    if (d->state.listed == 0)
        return 0;
    d->state.attached[pick(drawn >> 8, d->state.listed)] = (uint8_t)(2 + (drawn & 0x7f));
    return 1;
}

/* "log counts are at most 16, lost counts at most 65,535" */
static int log_of_17(struct device *d, uint64_t drawn)
{
    d->state.logged[pick(drawn, d->state.settings.guests)] = 17 + (drawn >> 40);
    return 1;
}

static int lost_65536(struct device *d, uint64_t drawn)
{
    d->state.lost[pick(drawn, d->state.settings.guests)] = 65536 + (uint32_t)(drawn >> 40);
    return 1;
}

/* "Guest and endpoint places not in use are zero too" */
static int unused_guest_place(struct device *d, uint64_t drawn)
{
    size_t used = d->state.settings.guests;
    if (used == VIOMMU_GUESTS)
        return 0;
    size_t g = used + pick(drawn >> 8, VIOMMU_GUESTS - used);
    switch (drawn % 5) {
    case 0: d->state.settings.shares[g] = 1; break;
    case 1: d->state.settings.firsts[g] = 1; break;
    case 2: d->state.settings.lasts[g] = 1; break;
    case 3: d->state.logged[g] = 1; break;
    default: d->state.lost[g] = 1; break;
    }
    return 1;
}

static int unused_endpoint_place(struct device *d, uint64_t drawn)
{
    if (d->state.listed == VIOMMU_ENDPOINTS)
        return 0;
    size_t i = d->state.listed + pick(drawn >> 8, VIOMMU_ENDPOINTS - d->state.listed);
    switch (drawn % 4) {
    case 0: d->state.endpoints[i] = 1; break;
    case 1: d->state.owners[i] = 1; break;
    case 2: d->state.attached[i] = 1; break;
    default: d->state.domains[i] = 1; break;
    }
    return 1;
}

/* "unused places zero" */
static int unused_fault_place(struct device *d, uint64_t drawn)
{
    size_t g = pick(drawn >> 16, VIOMMU_GUESTS);
    size_t used = d->state.logged[g];
    if (used == VIOMMU_FAULTS)
        return 0;
    size_t place = VIOMMU_FAULTS * g + used + pick(drawn >> 8, VIOMMU_FAULTS - used);
    switch (drawn % 4) {
    case 0: d->state.reasons[place] = 1; break;
    case 1: d->state.flags[place] = 257; break;
    case 2: d->state.sources[place] = 1; break;
    default: d->state.addresses[place] = 1; break;
    }
    return 1;
}

/* a place of a logged fault of some guest's, or VIOMMU_FAULT_PLACES where that log is empty */
static size_t logged_place(const struct device *d, uint64_t drawn)
{
    size_t g = pick(drawn >> 16, d->state.settings.guests);
    if (d->state.logged[g] == 0)
        return VIOMMU_FAULT_PLACES;
    return VIOMMU_FAULTS * g + pick(drawn >> 8, d->state.logged[g]);
}

/* "each logged fault has the form below": reason 1 or 2, flags READ or WRITE plus ADDRESS */
static int fault_of_no_form(struct device *d, uint64_t drawn)
{
    static const uint32_t wrong_flags[] = {0, 1, 2, 256, 259, 513};
    size_t place = logged_place(d, drawn);
    if (place == VIOMMU_FAULT_PLACES)
        return 0;
    if (drawn & 1)
        d->state.reasons[place] = (drawn & 2) ? 0 : 3;
    else
        d->state.flags[place] = wrong_flags[pick(drawn, 6)];
    return 1;
}

/* "and names an endpoint of its guest" */
static int fault_of_another(struct device *d, uint64_t drawn)
{
    size_t place = logged_place(d, drawn);
    size_t i = d->state.listed > 0 ? pick(drawn, d->state.listed) : 0;
    if (place == VIOMMU_FAULT_PLACES || d->state.owners[i] == place / VIOMMU_FAULTS)
        return 0;
    d->state.sources[place] = d->state.endpoints[i];
    return 1;
}

const struct way place_ways[] = {
    WAY(attached_outside),
    WAY(unattached_in_domain),
    WAY(attached_flag_2),
    WAY(log_of_17),
    WAY(lost_65536),
    WAY(unused_guest_place),
    WAY(unused_endpoint_place),
    WAY(unused_fault_place),
    WAY(fault_of_no_form),
    WAY(fault_of_another),
    {NULL, NULL},
};
