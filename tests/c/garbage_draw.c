/* Calls of which most are worked, and some are refused by each of the rules. */
#include <string.h>

#include "garbage.h"
#include "requests.h"

/* The place of an endpoint, most often one of the guest's; VIOMMU_ENDPOINTS for none. */
static size_t draw_place(struct random *r, const struct viommu_state *s, uint8_t guest)
{
    size_t i = VIOMMU_ENDPOINTS;
    if (s->listed == 0 || s->listed > VIOMMU_ENDPOINTS)
        return i;
    for (size_t tries = 0; tries < 6 && (i == VIOMMU_ENDPOINTS || s->owners[i] != guest); tries++)
        i = below(r, s->listed);
    return i;
}

/* The number of a listed endpoint, or now and then any number. */
static uint32_t draw_endpoint(struct random *r, const struct viommu_state *s, uint8_t guest)
{
    size_t i = draw_place(r, s, guest);
    return i == VIOMMU_ENDPOINTS || once_in(r, 16) ? (uint32_t)edge(r) : s->endpoints[i];
}

/* The domain of an endpoint, most often one of the guest's, or one of the first few of the range, or any. */
static uint32_t draw_domain(struct random *r, const struct viommu_state *s, uint8_t guest)
{
    size_t i = draw_place(r, s, guest);
    if (once_in(r, 24))
        return (uint32_t)edge(r);
    if (i < VIOMMU_ENDPOINTS && s->attached[i] && !once_in(r, 4))
        return s->domains[i];
    return s->settings.domains.start + (uint32_t)below(r, 5);
}

/* The lowest set bit of the mask; 1 for a mask of 0. */
static uint64_t granularity(const struct viommu_state *s)
{
    uint64_t g = s->settings.mask & -s->settings.mask;
    return g ? g : 1;
}

/* The start of one of the first 64 grains of the input range. */
static uint64_t draw_start(struct random *r, const struct viommu_state *s)
{
    uint64_t grain = granularity(s);
    return grain * below(r, 64) + s->settings.input.start / grain * grain;
}

static uint64_t draw_address(struct random *r, const struct viommu_state *s)
{
    return draw_start(r, s) + below(r, granularity(s));
}

/* One of the first multiples of the granularity in the guest's window, or now and then any address near its start. */
static uint64_t draw_phys(struct random *r, const struct viommu_state *s, uint8_t guest)
{
    uint64_t grain = granularity(s);
    uint64_t first = s->settings.firsts[guest % VIOMMU_GUESTS];
    if (once_in(r, 8))
        return first + below(r, 0x800);
    return first + (grain - first % grain) % grain + grain * below(r, 4);
}

/* A MAP of one to four grains, most often inside the guest's window. */
static struct readable draw_map(struct random *r, const struct viommu_state *s, uint8_t guest)
{
    uint64_t grain = granularity(s);
    uint64_t start = draw_start(r, s);
    uint64_t end = start + grain * (1 + below(r, 4)) - 1;
    uint64_t phys = draw_phys(r, s, guest);
    uint32_t flags = (uint32_t)below(r, 4);
    switch (below(r, 32)) {
    case 0: start = edge(r); break;
    case 1: end = edge(r); break;
    case 2: phys = edge(r); break;
    case 3: flags = (uint32_t)edge(r); break;
    case 4: end = UINT64_MAX, start = end - grain + 1; break;
    default: break;
    }
    return map(draw_domain(r, s, guest), start, end, phys, flags);
}

/* An UNMAP of up to 16 grains, now and then of everything. */
static struct readable draw_unmap(struct random *r, const struct viommu_state *s, uint8_t guest)
{
    uint64_t grain = granularity(s);
    uint64_t start = draw_start(r, s);
    uint64_t end = start + grain * below(r, 16) - 1;
    if (once_in(r, 12))
        start = 0, end = UINT64_MAX;
    return unmap(draw_domain(r, s, guest), start, end, once_in(r, 24) ? (uint32_t)edge(r) : 0);
}

static struct readable draw_request(struct random *r, const struct viommu_state *s, uint8_t guest)
{
    uint64_t reserved = once_in(r, 24) ? edge(r) : 0;
    uint64_t turn = below(r, 34);
    if (turn >= 32)
        return probe(draw_endpoint(r, s, guest));
    if (turn < 8)
        return attach(draw_domain(r, s, guest), draw_endpoint(r, s, guest), reserved);
    if (turn < 10)
        return detach(draw_domain(r, s, guest), draw_endpoint(r, s, guest), reserved);
    return turn < 14 ? draw_unmap(r, s, guest) : draw_map(r, s, guest);
}

/* The request's bytes, and now and then one byte, one length or all of it made anything at all. */
static void fill_request(struct random *r, const struct viommu_state *s, struct call *c)
{
    struct readable q = draw_request(r, s, c->guest.number);
    scatter(r, c->readable, sizeof c->readable);
    memcpy(c->readable, q.bytes, q.count);
    c->readable_bytes = q.count;
    c->writable_bytes = q.bytes[0] == VIOMMU_PROBE ? VIOMMU_PROBE_BYTES : VIOMMU_STATUS_BYTES;
    switch (below(r, 24)) {
    case 0: c->readable[0] = (uint8_t)below(r, 256); break;
    case 1: c->readable_bytes = below(r, READABLE_MOST + 1); break;
    case 2: c->writable_bytes = once_in(r, 2) ? below(r, 9) : VIOMMU_PROBE_BYTES - 2 + below(r, 5); break;
    case 3: c->readable[below(r, q.count)] = (uint8_t)draw(r); break;
    case 4: scatter(r, c->readable, sizeof c->readable), c->readable_bytes = below(r, READABLE_MOST + 1); break;
    default: break;
    }
}

/* An access in a record, by an endpoint in the record's domain, if the table has records. */
static void aim(struct random *r, const struct device *d, struct call *c)
{
    const struct viommu_state *s = &d->state;
    if (s->live == 0 || s->live > VIOMMU_RECORDS || s->listed > VIOMMU_ENDPOINTS)
        return;
    const uint64_t *w = d->table + VIOMMU_RECORD_WORDS * below(r, s->live);
    c->address = w[1] + below(r, (w[2] - w[1]) / 2 + 1) + below(r, (w[2] - w[1]) / 2 + 2);
    for (size_t i = 0; i < s->listed; i++)
        if (s->attached[i] && ((uint64_t)s->owners[i] << 32) + s->domains[i] == w[0])
            c->endpoint.number = s->endpoints[i];
}

/* A guest, or now and then a number near to the last, or a guest's with one bit more. */
static uint8_t draw_guest(struct random *r, const struct viommu_state *s)
{
    uint8_t guest = (uint8_t)below(r, VIOMMU_GUESTS);
    if (s->settings.guests > 0 && !once_in(r, 16))
        return (uint8_t)(guest % s->settings.guests);
    return (uint8_t)(once_in(r, 2) ? guest + 1u : guest | 1u << below(r, 8));
}

struct call draw_call(struct random *r, const struct device *d)
{
    static const enum entry entries[] = {REQUEST, REQUEST, REQUEST, REQUEST, ACCESS, ACCESS, FETCH};
    const struct viommu_state *s = &d->state;
    struct call c;
    memset(&c, 0, sizeof c);
    c.entry = once_in(r, 128) ? RESET : entries[below(r, sizeof entries / sizeof *entries)];
    c.guest.number = draw_guest(r, s);
    c.endpoint.number = draw_endpoint(r, s, c.guest.number);
    c.address = once_in(r, 8) ? edge(r) : draw_address(r, s);
    c.kind = (uint8_t)(once_in(r, 8) ? draw(r) : below(r, 2));
    if (c.entry == ACCESS && once_in(r, 2))
        aim(r, d, &c);
    scatter(r, c.writable, sizeof c.writable);
    c.writable_bytes = below(r, once_in(r, 2) ? WRITABLE_MOST + 1 : 3 * VIOMMU_FAULT_BYTES);
    if (c.entry == REQUEST)
        fill_request(r, s, &c);
    return c;
}
