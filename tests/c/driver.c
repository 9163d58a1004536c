/* A device in hand: calls that keep the state which they are given back. */
#include "driver.h"

#include <string.h>

#include "expect.h"
#include "regions.h"

uint8_t start(struct driver *d, struct viommu_settings settings)
{
    static const uint32_t endpoints[] = {8, 9, 10, 11};
    static const uint8_t owners[] = {0, 1, 2, 3};
    struct viommu_set_up_given given =
        viommu_set_up(settings, endpoints, settings.guests, owners, settings.guests, no_regions,
                      REGION_WORDS(settings.guests), d->table, VIOMMU_TABLE_WORDS);
    d->state = given.state;
    return given.number;
}

uint8_t ask(struct driver *d, uint8_t guest, struct readable r)
{
    struct viommu_guest g = {guest};
    uint8_t writable[4] = {0xff, 0xff, 0xff, 0xff};
    struct viommu_request_given given =
        viommu_request(d->state, d->table, VIOMMU_TABLE_WORDS, g, r.bytes, r.count, writable, sizeof writable);
    EXPECT(given.number == VIOMMU_DONE && given.used == 4);
    EXPECT(writable[1] == 0 && writable[2] == 0 && writable[3] == 0);
    d->state = given.state;
    return writable[0];
}

struct viommu_access_given reach(struct driver *d, uint32_t endpoint, uint64_t address, uint8_t kind)
{
    struct viommu_endpoint e = {endpoint};
    struct viommu_access_given given = viommu_access(d->state, d->table, VIOMMU_TABLE_WORDS, e, address, kind);
    d->state = given.state;
    return given;
}
