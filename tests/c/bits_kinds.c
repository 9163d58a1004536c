/* Devices of several kinds: without endpoints, with few and with all, with tables and logs empty, used in part, and full. */
#include <string.h>

#include "bits.h"
#include "distinct.h"
#include "driver.h"
#include "expect.h"
#include "regions.h"

static struct driver held; /* the device that is being made */

static void set_up(struct viommu_settings s, const uint32_t *endpoints, const uint8_t *owners, const uint64_t *regions,
                   size_t count)
{
    struct viommu_set_up_given given = viommu_set_up(s, endpoints, count, owners, count, regions, REGION_WORDS(count),
                                                     held.table, VIOMMU_TABLE_WORDS);
    EXPECT(given.number == VIOMMU_DONE);
    held.state = given.state;
}

static void ask_ok(uint8_t guest, struct readable r)
{
    EXPECT(ask(&held, guest, r) == VIOMMU_STATUS_OK);
}

static struct viommu_settings one_guest(uint32_t share, uint64_t mask)
{
    struct viommu_settings s = {
        .guests = 1,
        .shares = {share},
        .firsts = {0x80000000},
        .lasts = {0x8fffffff},
        .mask = mask,
        .input = {.start = 0, .end = UINT64_MAX},
        .domains = {.start = 0, .end = UINT32_MAX},
    };
    return s;
}

/* One guest without an endpoint. */
static void bare(void)
{
    static const uint32_t endpoints[] = {0};
    static const uint8_t owners[] = {0};
    set_up(one_guest(1, 0x1000), endpoints, owners, no_regions, 0);
}

/* Three guests with five endpoints, of which three are attached. Bytes are the granularity: in each domain the records lie end
   to end, the first with an even last address, so that one bit more makes it share one address with the next. The regions
   of two that are attached lie end to end with their records; one that is not attached has every address reserved. */
static void end_to_end(void)
{
    static const uint32_t endpoints[] = {0x10000008, 0x00000008, 0x01000008, 0x00010008, 0x00000108};
    static const uint8_t owners[] = {2, 0, 2, 1, 0};
    static const struct viommu_regions regions[] = {
        {1, {{VIOMMU_REGION_MSI, UINT64_MAX - 2, UINT64_MAX - 2}}},
        {2, {{VIOMMU_REGION_RESERVED, 0x21, 0x2f}, {VIOMMU_REGION_RESERVED, 0, 0xf}}},
        {0, {{0}}},
        {1, {{VIOMMU_REGION_RESERVED, 0, UINT64_MAX}}},
        {0, {{0}}},
    };
    struct viommu_settings s = one_guest(3, 0x8000000000000001);
    s.guests = 3;
    s.shares[2] = 4;
    s.firsts[1] = 0x7000000000000000, s.lasts[1] = UINT64_MAX;
    s.firsts[2] = 0x90000000, s.lasts[2] = 0x9000ffff;
    set_up(s, endpoints, owners, &regions[0].count, 5);
    ask_ok(0, attach(0, 0x00000008, 0));
    ask_ok(2, attach(0, 0x10000008, 0));
    ask_ok(2, attach(0xfffffff0, 0x01000008, 0));
    ask_ok(0, map(0, 0x10, 0x12, 0x80000000, 1));
    ask_ok(0, map(0, 0x13, 0x20, 0x8ffffff2, 2));
    ask_ok(2, map(0, UINT64_MAX - 1, UINT64_MAX, 0x90000000, 3));
    ask_ok(2, map(0xfffffff0, 0, 2, 0x9000fff0, 0));
    ask_ok(2, map(0xfffffff0, 3, 0xfffe, 0x90000000, 1));
    EXPECT(reach(&held, 0x10000008, 5, VIOMMU_WRITE).number == VIOMMU_UNMAPPED);
    EXPECT(reach(&held, 0x00000108, UINT64_MAX, VIOMMU_READ).number == VIOMMU_UNATTACHED);
}

/* One guest whose table is full, and its log too. */
static void full(void)
{
    static const uint32_t endpoints[] = {8};
    static const uint8_t owners[] = {0};
    set_up(one_guest(VIOMMU_RECORDS, 0x1000), endpoints, owners, no_regions, 1);
    for (uint64_t n = 0; n < VIOMMU_FAULTS + 1; n++)
        EXPECT(reach(&held, 8, n, VIOMMU_READ).number == VIOMMU_UNATTACHED);
    ask_ok(0, attach(0, 8, 0));
    for (uint64_t n = 0; n < VIOMMU_RECORDS; n++)
        ask_ok(0, map(0, 0x2000 * n, 0x2000 * n + 0xfff, 0x80000000 + 0x1000 * n, 3));
}

/* Four guests with all endpoints and regions of each number, each attached to a domain of its own, with a record and a full
   log each. */
static void all_in_use(void)
{
    uint32_t endpoints[VIOMMU_ENDPOINTS];
    uint8_t owners[VIOMMU_ENDPOINTS];
    struct viommu_regions regions[VIOMMU_ENDPOINTS];
    for (size_t i = 0; i < VIOMMU_ENDPOINTS; i++)
        endpoints[i] = distinct_endpoint(i), owners[i] = distinct_owner(i), regions[i] = distinct_regions(i);
    set_up(distinct_settings(), endpoints, owners, &regions[0].count, VIOMMU_ENDPOINTS);
    for (size_t place = 0; place < VIOMMU_FAULT_PLACES; place++) {
        struct fault f = distinct_fault(place);
        EXPECT(reach(&held, f.source, f.address, f.kind).number == VIOMMU_UNATTACHED);
    }
    for (size_t i = 0; i < VIOMMU_ENDPOINTS; i++)
        ask_ok(owners[i], attach(distinct_domain(i), endpoints[i], 0));
    for (uint8_t g = 0; g < VIOMMU_GUESTS; g++) {
        struct record r = distinct_record(g);
        ask_ok(g, map(distinct_domain(g), r.words[1], r.words[2], r.words[3], (uint32_t)r.words[4]));
    }
}

int make_kind(size_t kind, struct device *d)
{
    static void (*const kinds[])(void) = {bare, end_to_end, full, all_in_use};
    if (kind >= sizeof kinds / sizeof *kinds)
        return 0;
    kinds[kind]();
    memset(d, 0, sizeof *d);
    d->state = held.state;
    d->words = VIOMMU_TABLE_WORDS;
    memcpy(d->table, held.table, sizeof held.table);
    return 1;
}
