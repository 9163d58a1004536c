/* MAP: "overlapping a region of any endpoint in the domain is INVAL", after step 7 and before step 8. */
#include "expect.h"
#include "show_regions.h"
#include "shown.h"

/* A MAP of guest 0 for reads, from the window's start on. */
static struct readable map_of(uint32_t domain, uint64_t start, uint64_t end)
{
    return map(domain, start, end, 0x80000000, VIOMMU_FLAG_READ);
}

/* Endpoint 8 is in domain 1, which has no record yet. */
static void show_barred(struct driver *d)
{
    show_asked("map the region of one address", d, 0, map_of(1, 0x1000, 0x1fff));
    show_asked("map from before it onto it", d, 0, map_of(1, 0, 0x1fff));
    show_asked("map from it on", d, 0, map_of(1, 0x1000, 0x2fff));
    show_asked("map onto the MSI region's start", d, 0, map_of(1, 0xfedff000, 0xfee00fff));
    show_asked("map from the MSI region's end on", d, 0, map_of(1, 0xfeeff000, 0xfef00fff));
    show_asked("map inside the MSI region", d, 0, map_of(1, 0xfee10000, 0xfee10fff));
    show_asked("map around the MSI region", d, 0, map_of(1, 0xf0000000, 0xffffffff));
}

/* Steps that come before it: 1, 3 and 6. */
static void show_steps_before(struct driver *d)
{
    show_asked("on a region, no such domain", d, 0, map_of(2, 0x1000, 0x1fff));
    show_asked("on a region, nothing to map", d, 0, map_of(1, 0x1000, 0x1000));
    show_asked("on a region, outside the window", d, 0, map(1, 0x1000, 0x1fff, 0x90000000, VIOMMU_FLAG_READ));
}

/* Pages that meet no region, until guest 0 holds its share, 4; and then the step after it. */
static void show_beside(struct driver *d)
{
    show_asked("map up to the region of one address", d, 0, map_of(1, 0, 0xfff));
    show_asked("map from after it", d, 0, map_of(1, 0x2000, 0x2fff));
    show_asked("map up to the MSI region", d, 0, map_of(1, 0xfedff000, 0xfedfffff));
    show_asked("map from after the MSI region", d, 0, map_of(1, 0xfef00000, 0xfef00fff));
    show_asked("on a region, past the share", d, 0, map_of(1, 0x1000, 0x1fff));
    show_asked("beside, past the share", d, 0, map_of(1, 0x3000, 0x3fff));
}

/* Whose regions bind a domain: those of all endpoints that are in it now. */
static void show_whose(struct driver d)
{
    show_asked("10 attached to 1", &d, 0, attach(1, 10, 0));
    show_asked("8 attached to 1 too", &d, 0, attach(1, 8, 0));
    show_asked("9 attached to 2", &d, 0, attach(2, 9, 0));
    show_asked("map 8's region in 1", &d, 0, map_of(1, 0x1000, 0x1fff));
    show_asked("map 9's region in 1", &d, 0, map_of(1, 0x5000, 0x5fff));
    show_asked("map 9's region in 2", &d, 0, map_of(2, 0x5000, 0x5fff));
    show_asked("map 8's region in 2", &d, 0, map_of(2, 0x1000, 0x1fff));
    show_asked("8 detached from 1", &d, 0, detach(1, 8, 0));
    show_asked("map 8's region in 1 now", &d, 0, map_of(1, 0x1000, 0x1fff));
}

/* Domain 1 of guest 0 and domain 1 of guest 1 have nothing to do with each other. */
static void show_guests(struct driver d)
{
    show_asked("10 attached to 1", &d, 0, attach(1, 10, 0));
    show_asked("11 attached to guest 1's 1", &d, 1, attach(1, 11, 0));
    show_asked("map 11's region in guest 1's 1", &d, 1, map(1, 0x3000, 0x3fff, 0x90000000, 1));
    show_asked("map 11's region in guest 0's 1", &d, 0, map_of(1, 0x3000, 0x3fff));
    show_asked("map beside it in guest 1's 1", &d, 1, map(1, 0x4000, 0x4fff, 0x90000000, 1));
}

/* An endpoint that is not attached holds domain 0 and is not in it: the region of 9, all of the input range, does not bind it. */
static void show_domain_0(void)
{
    static const uint32_t endpoints[] = {8, 9};
    static const uint8_t owners[] = {0, 0};
    static const struct viommu_regions all[] = {{0, {{0}}}, {1, {{RESERVED, 0, 0xffffffff}}}};
    struct viommu_settings s = shown_settings();
    struct driver d;
    s.domains.start = 0;
    struct viommu_set_up_given given = viommu_set_up(s, endpoints, 2, owners, 2, &all[0].count,
                                                     2 * VIOMMU_ENDPOINT_REGION_WORDS, d.table, VIOMMU_TABLE_WORDS);
    EXPECT(given.number == VIOMMU_DONE);
    d.state = given.state;
    EXPECT(ask(&d, 0, attach(0, 8, 0)) == VIOMMU_STATUS_OK);
    printf("map in domain 0: %u\n", ask(&d, 0, map_of(0, 0x1000, 0x1fff)));
    printf("9 attached to domain 0: %u\n", ask(&d, 0, attach(0, 9, 0)));
    printf("9 attached to domain 1: %u\n", ask(&d, 0, attach(1, 9, 0)));
    printf("map in domain 1: %u\n", ask(&d, 0, map_of(1, 0x1000, 0x1fff)));
    EXPECT(d.state.live == 1);
}

void show_maps(struct driver d)
{
    show_whose(d);
    show_guests(d);
    show_domain_0();
    show_asked("8 attached to 1", &d, 0, attach(1, 8, 0));
    show_barred(&d);
    show_steps_before(&d);
    show_beside(&d);
}
