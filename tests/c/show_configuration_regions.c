/* Reserved regions in a set-up of endpoints 8 and 9: at most four for each endpoint, one of them MSI, of which no two overlap. */
#include "show_configuration.h"

#define RESERVED VIOMMU_REGION_RESERVED
#define MSI VIOMMU_REGION_MSI

/* Endpoint 8 has these regions, and endpoint 9 none. */
static void with(const char *what, struct viommu_settings c, struct viommu_regions q)
{
    struct lists l = listed(2, 2);
    l.regions[0] = q;
    set_up(what, c, l);
}

/* Endpoint 8 has this one. */
static void with_one(const char *what, struct viommu_settings c, uint64_t subtype, uint64_t start, uint64_t end)
{
    with(what, c, (struct viommu_regions){1, {{subtype, start, end}}});
}

/* Endpoint 8 has a region from 0x1000 to 0x1fff, and this one. */
static void with_two(const char *what, struct viommu_settings c, uint64_t subtype, uint64_t start, uint64_t end)
{
    with(what, c, (struct viommu_regions){2, {{RESERVED, 0x1000, 0x1fff}, {subtype, start, end}}});
}

/* Four regions: each lies next to another, and they are not in the order of their addresses. */
static struct viommu_regions four(void)
{
    return (struct viommu_regions){
        4, {{RESERVED, 0x2000, 0x2fff}, {MSI, 0x3000, 0x3fff}, {RESERVED, 0x800, 0xfff}, {RESERVED, 0x1000, 0x1fff}}};
}

/* Both endpoints have these regions: of different endpoints they may overlap, and be MSI. */
static void with_both(const char *what, struct viommu_settings c, struct viommu_regions q)
{
    struct lists l = listed(2, 2);
    l.regions[0] = q;
    l.regions[1] = q;
    set_up(what, c, l);
}

/* Thirty-two endpoints, of which the last has these regions. */
static void with_last(const char *what, struct viommu_settings c, struct viommu_regions q)
{
    struct lists l = {.endpoint_count = 32, .owner_count = 32, .region_words = VIOMMU_REGION_PLACES};
    for (size_t i = 0; i < 32; i++) {
        l.endpoints[i] = (uint32_t)(i + 1);
        l.owners[i] = 1;
    }
    l.regions[31] = q;
    set_up(what, c, l);
}

/* Places of regions from the number on are not looked at, and the state has zero there. */
static void show_unused(struct viommu_settings c)
{
    with("region places not in use filled", c,
         (struct viommu_regions){1, {{RESERVED, 0x1000, 0x1fff}, {9, 7, 3}, {MSI, 0, UINT64_MAX}, {MSI, 0, UINT64_MAX}}});
    with("all region places not in use filled", c, (struct viommu_regions){0, {{9, 7, 3}, {9, 7, 3}, {9, 7, 3}, {9, 7, 3}}});
}

/* Regions may lie anywhere: alignment, ranges and windows do not bind them. */
void show_good_regions(struct viommu_settings c)
{
    with_one("a reserved region", c, RESERVED, 0x1000, 0x1fff);
    with_one("an MSI region", c, MSI, 0xfee00000, 0xfeefffff);
    with_one("a region of one address", c, RESERVED, 5, 5);
    with_one("a region of all addresses", c, MSI, 0, UINT64_MAX);
    with_one("a region past the input range", c, RESERVED, 0x100000001, 0x100000002);
    with_two("regions that lie end to end", c, RESERVED, 0x2000, 0x2000);
    with_two("regions that lie end to end, the later first", c, MSI, 0xfff, 0xfff);
    with("four regions, one MSI", c, four());
    with_both("the same four regions of two endpoints", c, four());
    with_last("four regions of the last of 32 endpoints", c, four());
    show_unused(c);
}

/* The number of regions. */
static void show_counts(struct viommu_settings c)
{
    struct viommu_regions q = four();
    q.count = 5;
    with("5 regions", c, q);
    q.count = 13;
    with("13 regions", c, q);
    q.count = 256;
    with("2^8 regions", c, q);
    q.count = ((uint64_t)1 << 32) + 1;
    with("2^32 + 1 regions", c, q);
    q.count = (uint64_t)1 << 63;
    with("2^63 regions", c, q);
    q.count = UINT64_MAX;
    with("2^64 - 1 regions", c, q);
}

/* One region that is not good, by itself; the last two are good in their low 32 bits. */
static void show_one(struct viommu_settings c)
{
    with_one("subtype 2", c, 2, 0x1000, 0x1fff);
    with_one("subtype 2^8", c, 256, 0x1000, 0x1fff);
    with_one("region start above end", c, RESERVED, 0x1001, 0x1000);
    with_one("region from the last address to the first", c, RESERVED, UINT64_MAX, 0);
    with_one("subtype 2^32 + 1", c, 0x100000001, 0x1000, 0x1fff);
    with_one("region start above end by its high half", c, RESERVED, 0x100001000, 0x1fff);
}

/* Two regions that are not good beside each other. */
static void show_two(struct viommu_settings c)
{
    with_two("regions share one address", c, RESERVED, 0x1fff, 0x2fff);
    with_two("regions share one address at the start", c, RESERVED, 0, 0x1000);
    with_two("a region inside another", c, MSI, 0x1800, 0x1800);
    with_two("a region around another", c, RESERVED, 0, UINT64_MAX);
    with_two("a region twice", c, RESERVED, 0x1000, 0x1fff);
    with("two MSI regions", c, (struct viommu_regions){2, {{MSI, 0x1000, 0x1fff}, {MSI, 0x3000, 0x3fff}}});
}

/* The first and the last of four. */
static void show_four(struct viommu_settings c)
{
    struct viommu_regions q = four();
    q.region[3].end = 0x2000;
    with("the last of four on the first", c, q);
    q = four();
    q.region[3].subtype = MSI;
    with("the last of four MSI too", c, q);
    q = four();
    q.region[3].subtype = 2;
    with("the last of four of subtype 2", c, q);
    q = four();
    q.region[3].start = 0x2000;
    with_last("the last of four of the last of 32, start above end", c, q);
}

/* The regions of endpoint 9 are judged too. */
static void show_second(struct viommu_settings c)
{
    struct lists l = listed(2, 2);
    l.regions[1] = (struct viommu_regions){1, {{2, 0x1000, 0x1fff}}};
    set_up("subtype 2, of the second endpoint", c, l);
}

/* Another number of words than 13 for each endpoint, though all are zero. */
static void show_words(const char *what, struct viommu_settings c, size_t endpoints, size_t words)
{
    struct lists l = listed(endpoints, endpoints);
    l.region_words = words;
    set_up(what, c, l);
}

void show_bad_regions(struct viommu_settings c)
{
    show_counts(c);
    show_one(c);
    show_two(c);
    show_four(c);
    show_second(c);
    show_words("no region words", c, 2, 0);
    show_words("the region words of one endpoint", c, 2, 13);
    show_words("a region word too few", c, 2, 25);
    show_words("a region word too many", c, 2, 27);
    show_words("the region words of three endpoints", c, 2, 39);
    show_words("the region words of 32 endpoints", c, 2, 416);
    show_words("region words without endpoints", c, 0, 13);
    show_words("a region word without endpoints", c, 0, 1);
}
