/* Set-up on drawn settings, lists and table lengths. */
#include <string.h>

#include "expect.h"
#include "garbage.h"
#include "lent.h"

/* Good settings: windows a multiple of 2^40 apart, shares of which some are soon used up. */
static struct viommu_settings draw_good(struct random *r)
{
    struct viommu_settings s;
    memset(&s, 0, sizeof s);
    s.guests = 1 + below(r, VIOMMU_GUESTS);
    for (size_t g = 0; g < VIOMMU_GUESTS; g++) {
        s.shares[g] = (uint32_t)(once_in(r, 2) ? below(r, 5) : below(r, 65));
        s.firsts[g] = ((uint64_t)(g + 1) << 40) + below(r, 0x10000);
        s.lasts[g] = s.firsts[g] + 0x1000 + below(r, 0x20000);
    }
    if (once_in(r, 8))
        s.lasts[s.guests - 1] = UINT64_MAX;
    s.mask = (draw(r) << 1 | 1) << (once_in(r, 2) ? 12 : below(r, 13));
    s.input.start = once_in(r, 2) ? 0 : below(r, 0x4000);
    s.input.end = once_in(r, 2) ? UINT64_MAX : 0x8000 + below(r, 0x40000);
    s.domains.start = (uint32_t)below(r, 3);
    s.domains.end = once_in(r, 3) ? UINT32_MAX : s.domains.start + (uint32_t)below(r, 4);
    return s;
}

/* Endpoint numbers that are unlike each other, each with an owner below the guest count, and good regions. */
static struct lists draw_lists(struct random *r, const struct viommu_settings *s)
{
    struct lists l;
    memset(&l, 0, sizeof l);
    l.endpoint_count = once_in(r, 8) ? below(r, 2) : 4 + below(r, VIOMMU_ENDPOINTS - 3);
    l.owner_count = l.endpoint_count;
    for (size_t i = 0; i < l.endpoint_count; i++) {
        l.endpoints[i] = (uint32_t)(below(r, 1000) * LIST_MOST + i);
        l.owners[i] = (uint8_t)below(r, s->guests);
    }
    draw_regions(r, s, &l);
    return l;
}

/* One thing in settings or lists is made any number at all. */
static void spoil(struct random *r, struct viommu_settings *s, struct lists *l)
{
    size_t g = below(r, VIOMMU_GUESTS);
    switch (below(r, 18)) {
    case 0: s->guests = once_in(r, 2) ? edge(r) : s->guests | (size_t)1 << below(r, 64); break;
    case 1: s->shares[g] = (uint32_t)edge(r); break;
    case 2: s->firsts[g] = edge(r); break;
    case 3: s->lasts[g] = edge(r); break;
    case 4: s->mask = edge(r); break;
    case 5: s->input.start = edge(r); break;
    case 6: s->input.end = edge(r); break;
    case 7: s->domains.start = (uint32_t)edge(r); break;
    case 8: l->endpoint_count = below(r, LIST_MOST + 1); break;
    case 9: l->owner_count = below(r, LIST_MOST + 1); break;
    case 10: l->owners[below(r, LIST_MOST)] = (uint8_t)edge(r); break;
    case 11: l->endpoints[below(r, LIST_MOST)] = l->endpoints[below(r, LIST_MOST)]; break;
    default: spoil_regions(r, l); break;
    }
}

/* The state that a set-up answered 0 starts with. */
static struct viommu_state started(struct viommu_settings s, const struct lists *l)
{
    struct viommu_state w;
    memset(&w, 0, sizeof w);
    for (size_t g = s.guests; g < VIOMMU_GUESTS; g++)
        s.shares[g] = 0, s.firsts[g] = 0, s.lasts[g] = 0;
    w.settings = s;
    w.listed = l->endpoint_count;
    memcpy(w.endpoints, l->endpoints, l->endpoint_count * sizeof *l->endpoints);
    memcpy(w.owners, l->owners, l->owner_count);
    for (size_t i = 0; i < l->endpoint_count; i++)
        memcpy(w.regions + VIOMMU_ENDPOINT_REGION_WORDS * i, &l->regions[i],
               region_words_used(&l->regions[i]) * sizeof *w.regions);
    return w;
}

/* The table is as lent, or, after a set-up answered 0, all zero. */
static void check_table(const uint64_t *table, const struct device *d, int done)
{
    for (size_t i = 0; i < d->words; i++)
        EXPECT(table[i] == (done ? 0 : d->table[i]));
}

/* "Set-up: 2 (length), then 5." */
static uint8_t set_up_number(const struct viommu_settings *s, const struct lists *l, size_t words)
{
    if (words != VIOMMU_TABLE_WORDS)
        return VIOMMU_UNSOUND;
    return good(s, l) ? VIOMMU_DONE : VIOMMU_BAD_CONFIGURATION;
}

/* Calls set-up on lent copies of the lists and of the device's table, and takes over what it gives. */
static int call_set_up(struct viommu_settings s, const struct lists *l, struct device *d, struct met *met)
{
    static struct lent endpoints, owners, regions, table;
    if (!table.room) {
        endpoints = lent_room(sizeof l->endpoints);
        owners = lent_room(sizeof l->owners);
        regions = lent_room(sizeof l->regions);
        table = lent_room(sizeof d->table);
    }
    uint32_t *e = memcpy(lent_part(endpoints, l->endpoint_count * 4), l->endpoints, l->endpoint_count * 4);
    uint8_t *o = memcpy(lent_part(owners, l->owner_count), l->owners, l->owner_count);
    uint64_t *q = memcpy(lent_part(regions, l->region_words * 8), l->regions, l->region_words * 8);
    uint64_t *t = memcpy(lent_part(table, d->words * 8), d->table, d->words * 8);
    struct viommu_set_up_given given =
        viommu_set_up(s, e, l->endpoint_count, o, l->owner_count, q, l->region_words, t, d->words);
    int done = given.number == VIOMMU_DONE;
    struct viommu_state wanted;
    memset(&wanted, 0, sizeof wanted);
    EXPECT(given.number == set_up_number(&s, l, d->words));
    if (done)
        wanted = started(s, l);
    EXPECT(memcmp(&given.state, &wanted, sizeof wanted) == 0);
    check_table(t, d, done);
    lent_check(endpoints, l->endpoint_count * 4);
    lent_check(owners, l->owner_count);
    lent_check(regions, l->region_words * 8);
    lent_check(table, d->words * 8);
    met->calls++;
    met->numbers[SET_UP][given.number]++;
    memcpy(d->table, t, d->words * 8);
    d->state = given.state;
    return done;
}

int try_set_up(struct random *r, struct device *d, struct met *met)
{
    struct viommu_settings s = draw_good(r);
    struct lists l = draw_lists(r, &s);
    d->words = VIOMMU_TABLE_WORDS;
    scatter(r, d->table, sizeof d->table);
    if (once_in(r, 2))
        spoil(r, &s, &l);
    if (once_in(r, 16))
        scatter(r, &s, sizeof s);
    if (once_in(r, 8))
        damage_length(r, d);
    return call_set_up(s, &l, d, met);
}
