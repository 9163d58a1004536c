/* A good configuration, a clause at a time: each line sets up with a good one in which one thing is changed, and shows the
   number, the sum of all numbers of the state given back and the sum of the table's words. The words are all 7 before,
   8960 in sum. On 5 the state's sum is 0 and the table's stays; on 0 the state has the configuration and the table is
   zero. */
#include "show_configuration.h"

#include <stdio.h>

#include "shown.h"

/* Sets up with endpoint 8 of guest 0 and endpoint 9 of guest 1. */
static void with(const char *what, struct viommu_settings c)
{
    set_up(what, c, listed(2, 2));
}

/* The guest count. */
static void show_counts(struct viommu_settings c)
{
    c.guests = 0;
    set_up("guest count 0", c, listed(0, 0));
    c.guests = 1;
    set_up("guest count 1", c, listed(1, 1));
    c.guests = 4;
    for (size_t g = 0; g < VIOMMU_GUESTS; g++) {
        c.firsts[g] = 2 * g + 1;
        c.lasts[g] = 2 * g + 2;
    }
    with("guest count 4", c);
    c.guests = 5;
    with("guest count 5", c);
}

/* Places of guests from the count on are not looked at, and the state has zero there. */
static void show_unused(struct viommu_settings c)
{
    c.shares[2] = 300;
    c.firsts[2] = 2;
    c.lasts[2] = 1;
    with("places not in use filled", c);
}

/* The windows. */
static void show_windows(struct viommu_settings c)
{
    c.firsts[1] = 0x9fffffff;
    with("first = last", c);
    c.firsts[1] = 0xa0000000;
    with("first above last", c);
    c.firsts[1] = 0x8fffffff;
    with("windows share one address", c);
}

/* The window of guest 1 from address 0 on. */
static void show_windows_from_zero(struct viommu_settings c)
{
    c.firsts[1] = 0;
    c.lasts[1] = UINT64_MAX;
    with("a window inside another", c);
    c.lasts[1] = 0x80000000;
    with("windows share one address at the start", c);
    c.lasts[1] = 0x7fffffff;
    with("windows meet, the later first", c);
}

/* The shares, of which one sum would be 0 in 32 bits. */
static void show_shares(struct viommu_settings c)
{
    c.shares[1] = 252;
    with("shares sum to 256", c);
    c.shares[1] = 253;
    with("shares sum to 257", c);
    c.shares[1] = 0xfffffffc;
    with("shares sum to 2^32", c);
    c.shares[0] = 0;
    c.shares[1] = 0;
    with("shares of 0", c);
}

/* The mask. */
static void show_mask(struct viommu_settings c)
{
    c.mask = 0;
    with("mask 0", c);
    c.mask = 0x8000000000000000;
    with("mask 2^63", c);
}

/* The ranges, each put back before the next. */
static void show_ranges(struct viommu_settings c)
{
    c.input.start = 0xffffffff;
    with("input range of one address", c);
    c.input.start = 0x100000000;
    with("input start above end", c);
    c.input.start = 0;
    c.domains.start = 15;
    with("domain range of one", c);
    c.domains.start = 16;
    with("domain start above end", c);
}

/* The lists' lengths. */
static void show_lengths(struct viommu_settings good)
{
    set_up("empty lists", good, listed(0, 0));
    set_up("an owner too few", good, listed(2, 1));
    set_up("an owner too many", good, listed(1, 2));
}

/* What stands in the lists. */
static void show_lists(struct viommu_settings good)
{
    struct lists l = listed(2, 2);
    l.owners[1] = 2;
    set_up("owner equal to the count", good, l);
    l = listed(2, 2);
    l.endpoints[1] = 8;
    set_up("endpoint twice, of two guests", good, l);
    l = listed(3, 3);
    l.endpoints[2] = 8;
    l.owners[2] = 0;
    set_up("endpoint twice, of one guest", good, l);
    l = listed(2, 2);
    l.endpoints[0] = 0;
    set_up("endpoint 0", good, l);
}

/* As many endpoints of guest 1, numbered from 1. */
static void show_endpoints(const char *what, struct viommu_settings good, size_t count)
{
    struct lists l = {
        .endpoint_count = count, .owner_count = count, .region_words = VIOMMU_ENDPOINT_REGION_WORDS * count};
    for (size_t i = 0; i < count; i++) {
        l.endpoints[i] = (uint32_t)(i + 1);
        l.owners[i] = 1;
    }
    set_up(what, good, l);
}

/* Numbers that by their low 8, 16, 24 or 32 bits alone would be good ones, or two of them the same one. */
static void show_wide(struct viommu_settings good)
{
    struct viommu_settings c = good;
    c.guests = ((size_t)1 << 32) + 1;
    set_up("guest count 2^32 + 1", c, listed(1, 1));
    c.guests = ((size_t)1 << 8) + 2;
    with("guest count 2^8 + 2", c);
    c = good;
    c.shares[1] = 0x10004;
    with("a share of 2^16 + 4", c);
    c = good;
    c.firsts[1] += (uint64_t)1 << 32;
    with("first above last by its high half", c);
    c = good;
    c.input.start = (uint64_t)1 << 63;
    with("input start above end by its high bit", c);
    c = good;
    c.domains.start = 0x10001;
    with("domain start above end by its high half", c);
}

/* The same of the lists: an owner, and endpoints 8 and 8 and a bit more, which are two. */
static void show_wide_lists(struct viommu_settings good)
{
    static const uint8_t owners[] = {4, 16, 17, 32, 64, 128, 129, 255};
    for (size_t i = 0; i < sizeof owners; i++) {
        char what[16];
        struct lists l = listed(2, 2);
        l.owners[1] = owners[i];
        snprintf(what, sizeof what, "owner %u", owners[i]);
        set_up(what, good, l);
    }
    struct lists l = listed(2, 2);
    l.endpoints[1] = 0x01000008;
    set_up("endpoints 8 and 2^24 + 8", good, l);
    l.endpoints[1] = 0x00010008;
    set_up("endpoints 8 and 2^16 + 8", good, l);
}

/* The good configuration, then its clauses, as many endpoints as the state has places for and one more, numbers that are
   not good in their high bits alone, and reserved regions. */
int main(void)
{
    const struct viommu_settings good = shown_settings();
    with("good", good);
    show_counts(good);
    show_unused(good);
    show_windows(good);
    show_windows_from_zero(good);
    show_shares(good);
    show_mask(good);
    show_ranges(good);
    show_lengths(good);
    show_lists(good);
    show_endpoints("32 endpoints", good, 32);
    show_endpoints("33 endpoints", good, 33);
    show_wide(good);
    show_wide_lists(good);
    show_good_regions(good);
    show_bad_regions(good);
    return 0;
}
