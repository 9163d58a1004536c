/* Numbers of which no two are alike, so that one that stands in another's place is seen. */
#include "distinct.h"

/* The mask's lowest set bit is 0x80: the granularity of distinct_record. */
struct viommu_settings distinct_settings(void)
{
    struct viommu_settings s = {
        .guests = 4,
        .shares = {11, 22, 33, 44},
        .firsts = {0x1011121314151617, 0x3031323334353637, 0x5051525354555657, 0x7071727374757677},
        .lasts = {0x2021222324252627, 0x4041424344454647, 0x6061626364656667, 0x8081828384858687},
        .mask = 0xf1e2d3c4b5a69780,
        .input = {.start = 0x0102030405060708, .end = 0xf1f2f3f4f5f6f7f8},
        .domains = {.start = 0x01020304, .end = 0xa1a2a3a4},
    };
    return s;
}

uint32_t distinct_endpoint(size_t i)
{
    return (uint32_t)(0xe1000000 + 0x010203 * i);
}

uint8_t distinct_owner(size_t i)
{
    return (uint8_t)(i % VIOMMU_GUESTS);
}

uint32_t distinct_domain(size_t i)
{
    return (uint32_t)(0x01020304 + 0x01000001 * i);
}

/* The regions lie apart, above all records; one is MSI, another for each endpoint in turn. */
struct viommu_regions distinct_regions(size_t i)
{
    struct viommu_regions q = {.count = (i + 3) % (VIOMMU_REGIONS + 1)};
    for (size_t j = 0; j < VIOMMU_REGIONS; j++) {
        q.region[j].subtype = j == i % VIOMMU_REGIONS ? VIOMMU_REGION_MSI : VIOMMU_REGION_RESERVED;
        q.region[j].start = 0x9000000000000000 + 0x0001020304050607 * (VIOMMU_REGIONS * i + j);
        q.region[j].end = q.region[j].start + 0x0000a1a2a3a4a5a6;
    }
    return q;
}

/* The first eight faults of a log come from endpoints that are not attached yet, the other eight from the same ones,
   attached; reads and writes take turns. */
struct fault distinct_fault(size_t place)
{
    size_t guest = place / VIOMMU_FAULTS;
    size_t turn = place % VIOMMU_FAULTS;
    struct fault f = {
        .reason = turn < 8 ? VIOMMU_REASON_DOMAIN : VIOMMU_REASON_MAPPING,
        .kind = turn % 2 ? VIOMMU_WRITE : VIOMMU_READ,
        .flags = turn % 2 ? 258 : 257,
        .source = distinct_endpoint(turn % 8 * VIOMMU_GUESTS + guest),
        .address = 0x0303030303030303 * (place + 1),
    };
    return f;
}

/* In the domain of the guest's first endpoint, which stands at place guest, to the first multiple of 0x80 in its window; flags
   0, 1, 2 and 3. */
struct record distinct_record(uint8_t guest)
{
    uint64_t start = 0x0200000000000000 + (uint64_t)0x80 * guest;
    struct record r = {{
        ((uint64_t)guest << 32) + distinct_domain(guest),
        start,
        start + 0x7f,
        (distinct_settings().firsts[guest] | 0x7f) + 1,
        guest,
    }};
    return r;
}
