/* Ways to break "the configuration is good", a clause each. */
#include "garbage_break.h"

/* "the configuration is good": the guest count is 1 to 4 */
static int guest_count(struct device *d, uint64_t drawn)
{
    d->state.settings.guests = (drawn & 1) ? 0 : 5 + (drawn >> 40);
    return 1;
}

/* each window's first ≤ last */
static int window_upside_down(struct device *d, uint64_t drawn)
{
    size_t g = pick(drawn, d->state.settings.guests);
    d->state.settings.lasts[g] = d->state.settings.firsts[g] - 1;
    return d->state.settings.firsts[g] > 0;
}

/* no two windows share an address */
static int windows_share(struct device *d, uint64_t drawn)
{
    struct viommu_settings *s = &d->state.settings;
    (void)drawn;
    if (s->guests < 2 || s->lasts[0] >= s->lasts[1])
        return 0;
    s->lasts[0] = s->firsts[1];
    return 1;
}

/* shares sum to at most 256 */
static int shares_of_257(struct device *d, uint64_t drawn)
{
    const uint32_t *l = d->state.settings.shares;
    d->state.settings.shares[pick(drawn, d->state.settings.guests)] += 257 - (l[0] + l[1] + l[2] + l[3]);
    return 1;
}

/* two shares whose sum is 0 modulo 2^32 */
static int shares_that_wrap(struct device *d, uint64_t drawn)
{
    (void)drawn;
    if (d->state.settings.guests < 2)
        return 0;
    d->state.settings.shares[0] = 0x80000000;
    d->state.settings.shares[1] = 0x80000000;
    return 1;
}

/* the mask is not zero */
static int no_mask(struct device *d, uint64_t drawn)
{
    (void)drawn;
    d->state.settings.mask = 0;
    return 1;
}

/* both ranges have start ≤ end */
static int input_upside_down(struct device *d, uint64_t drawn)
{
    (void)drawn;
    d->state.settings.input.start = d->state.settings.input.end + 1;
    return d->state.settings.input.end < UINT64_MAX;
}

static int domains_upside_down(struct device *d, uint64_t drawn)
{
    (void)drawn;
    d->state.settings.domains.start = d->state.settings.domains.end + 1;
    return d->state.settings.domains.end < UINT32_MAX;
}

/* the lists have equal length of at most 32 */
static int endpoint_33(struct device *d, uint64_t drawn)
{
    d->state.listed = 33 + (drawn >> 40);
    return 1;
}

/* owners are below the guest count */
static int owner_unknown(struct device *d, uint64_t drawn)
{
    if (d->state.listed == 0)
        return 0;
    d->state.owners[pick(drawn, d->state.listed)] = (uint8_t)d->state.settings.guests;
    return 1;
}

/* no endpoint number appears twice */
static int endpoint_twice(struct device *d, uint64_t drawn)
{
    if (d->state.listed < 2)
        return 0;
    size_t i = pick(drawn, d->state.listed);
    d->state.endpoints[i] = d->state.endpoints[(i + 1) % d->state.listed];
    return 1;
}

const struct way configuration_ways[] = {
    WAY(guest_count),
    WAY(window_upside_down),
    WAY(windows_share),
    WAY(shares_of_257),
    WAY(shares_that_wrap),
    WAY(no_mask),
    WAY(input_upside_down),
    WAY(domains_upside_down),
    WAY(endpoint_33),
    WAY(owner_unknown),
    WAY(endpoint_twice),
    {NULL, NULL},
};
