/* Reserved regions: what PROBE tells of them, the MAPs and ATTACHes that they forbid, and that no call changes them. Each line
   is worked out from document 02's first request. */
#include "show_regions.h"

#include <inttypes.h>
#include <string.h>

#include "expect.h"
#include "shown.h"

static const struct viommu_regions regions[4] = {
    {2, {{MSI, 0xfee00000, 0xfeefffff}, {RESERVED, 0x1000, 0x1000}}},
    {1, {{RESERVED, 0x5fff, 0x5fff}}},
    {0, {{0}}},
    {4,
     {{RESERVED, 0x3000, 0x3fff},
      {RESERVED, 0, 0},
      {MSI, 0x0123456789abcdef, 0xfedcba9876543210},
      {RESERVED, UINT64_MAX, UINT64_MAX}}},
};

struct driver regions_start(void)
{
    static const uint32_t endpoints[] = {8, 9, 10, 11};
    static const uint8_t owners[] = {0, 0, 0, 1};
    struct driver d;
    struct viommu_set_up_given given =
        viommu_set_up(shown_settings(), endpoints, 4, owners, 4, &regions[0].count, 4 * VIOMMU_ENDPOINT_REGION_WORDS,
                      d.table, VIOMMU_TABLE_WORDS);
    EXPECT(given.number == VIOMMU_DONE);
    d.state = given.state;
    return d;
}

/* The regions are as set up, with zeros after those that there are. */
static void check_regions(const struct viommu_state *s)
{
    EXPECT(memcmp(s->regions, regions, sizeof regions) == 0);
    for (size_t i = 4 * VIOMMU_ENDPOINT_REGION_WORDS; i < VIOMMU_REGION_PLACES; i++)
        EXPECT(s->regions[i] == 0);
}

void show_asked(const char *what, struct driver *d, uint8_t guest, struct readable r)
{
    const struct driver before = *d;
    struct viommu_guest g = {guest};
    uint8_t writable[4] = {0xff, 0xff, 0xff, 0xff};
    struct viommu_request_given given =
        viommu_request(d->state, d->table, VIOMMU_TABLE_WORDS, g, r.bytes, r.count, writable, sizeof writable);
    printf("%s: %u %zu %u\n", what, given.number, given.used, writable[0]);
    EXPECT(writable[1] == 0 && writable[2] == 0 && writable[3] == 0);
    d->state = given.state;
    check_regions(&d->state);
    if (writable[0] == VIOMMU_STATUS_OK)
        return;
    EXPECT(same_state(&d->state, &before.state));
    EXPECT(memcmp(d->table, before.table, sizeof before.table) == 0);
}

void show_read(const char *what, struct driver *d, uint32_t endpoint, uint64_t address)
{
    struct viommu_access_given given = reach(d, endpoint, address, VIOMMU_READ);
    printf("%s: %u %" PRIx64 "\n", what, given.number, given.address);
    check_regions(&d->state);
}

/* A fetch of the fault that an access left, and resets of both guests: all is as after set-up. */
static void show_kept(struct driver d)
{
    const struct viommu_state fresh = d.state;
    uint8_t buffer[VIOMMU_FAULT_BYTES];
    show_asked("8 attached to 1", &d, 0, attach(1, 8, 0));
    show_asked("11 attached to 1", &d, 1, attach(1, 11, 0));
    show_asked("8's domain mapped", &d, 0, map(1, 0x2000, 0x2fff, 0x80002000, 1));
    show_read("8 reads its MSI region", &d, 8, 0xfee00000);
    struct viommu_fetch_given fetched =
        viommu_fetch(d.state, d.table, VIOMMU_TABLE_WORDS, (struct viommu_guest){0}, buffer, sizeof buffer);
    printf("fetched: %u %zu\n", fetched.number, fetched.count);
    check_regions(&fetched.state);
    d.state = fetched.state;
    for (uint8_t g = 0; g < 2; g++) {
        struct viommu_reset_given given = viommu_reset(d.state, d.table, VIOMMU_TABLE_WORDS, (struct viommu_guest){g});
        printf("guest %u reset: %u\n", g, given.number);
        check_regions(&given.state);
        d.state = given.state;
    }
    EXPECT(same_state(&d.state, &fresh));
}

int main(void)
{
    struct driver d = regions_start();
    check_regions(&d.state);
    show_probes(d);
    show_maps(d);
    show_attaches(d);
    show_kept(d);
    return 0;
}
