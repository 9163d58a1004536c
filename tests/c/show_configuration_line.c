/* One line of show_configuration, and what its set-up leaves behind. */
#include <inttypes.h>
#include <string.h>

#include "expect.h"
#include "show_configuration.h"
#include "shown.h"

/* The state of a device just set up: the settings, zero in places of guests that there are not, and the lists, zero in places
   of regions that there are not. */
static struct viommu_state wanted_state(const struct viommu_settings *c, const struct lists *l)
{
    struct viommu_state s = {.listed = l->endpoint_count};
    s.settings.guests = c->guests;
    s.settings.mask = c->mask;
    s.settings.input = c->input;
    s.settings.domains = c->domains;
    for (size_t g = 0; g < c->guests; g++) {
        s.settings.shares[g] = c->shares[g];
        s.settings.firsts[g] = c->firsts[g];
        s.settings.lasts[g] = c->lasts[g];
    }
    for (size_t i = 0; i < l->endpoint_count; i++) {
        s.endpoints[i] = l->endpoints[i];
        s.owners[i] = l->owners[i];
        memcpy(s.regions + VIOMMU_ENDPOINT_REGION_WORDS * i, &l->regions[i],
               (1 + VIOMMU_REGION_WORDS * l->regions[i].count) * sizeof *s.regions);
    }
    return s;
}

/* Every number of the state is the configuration's or zero, by the number given back. */
static void check_state(const struct viommu_set_up_given *given, const struct viommu_settings *c, const struct lists *l)
{
    if (given->number != VIOMMU_DONE) {
        EXPECT(zero_state(&given->state));
        return;
    }
    EXPECT(c->guests <= VIOMMU_GUESTS);
    EXPECT(l->endpoint_count <= VIOMMU_ENDPOINTS && l->owner_count == l->endpoint_count);
    EXPECT(l->region_words == VIOMMU_ENDPOINT_REGION_WORDS * l->endpoint_count);
    for (size_t i = 0; i < l->endpoint_count; i++)
        EXPECT(l->regions[i].count <= VIOMMU_REGIONS);
    struct viommu_state wanted = wanted_state(c, l);
    EXPECT(same_state(&given->state, &wanted));
}

struct lists listed(size_t endpoint_count, size_t owner_count)
{
    return (struct lists){
        .endpoints = {8, 9},
        .endpoint_count = endpoint_count,
        .owners = {0, 1},
        .owner_count = owner_count,
        .region_words = VIOMMU_ENDPOINT_REGION_WORDS * endpoint_count,
    };
}

void set_up(const char *what, struct viommu_settings c, struct lists l)
{
    uint64_t table[VIOMMU_TABLE_WORDS];
    for (size_t i = 0; i < VIOMMU_TABLE_WORDS; i++)
        table[i] = 7;
    struct viommu_set_up_given given =
        viommu_set_up(c, l.endpoints, l.endpoint_count, l.owners, l.owner_count, &l.regions[0].count, l.region_words,
                      table, VIOMMU_TABLE_WORDS);
    printf("%s: %u %" PRIu64 " %" PRIu64 "\n", what, (unsigned)given.number, sum_state(&given.state),
           sum_words(table, VIOMMU_TABLE_WORDS));
    check_state(&given, &c, &l);
    for (size_t i = 0; i < VIOMMU_TABLE_WORDS; i++)
        EXPECT(table[i] == (given.number == VIOMMU_DONE ? 0 : 7));
}
