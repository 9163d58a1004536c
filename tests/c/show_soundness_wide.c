/* Numbers that are wrong in their high bits alone: by their low 7, 8, 16, 24 or 32 bits each would be taken for a right one.
   And a table that is full, with a live count past it. */
#include "expect.h"
#include "show_soundness.h"

#define BIT(n) ((uint64_t)1 << (n))

/* The guest count, 2. The fetch is of guest 0, which is below each of these. */
static void show_count(struct driver d)
{
    d.state.settings.guests = BIT(32) + 1;
    show("guest count 2^32 + 1", &d);
    d.state.settings.guests = BIT(32) + 2;
    show("guest count 2^32 + 2", &d);
    d.state.settings.guests = BIT(32);
    show("guest count 2^32", &d);
    d.state.settings.guests = BIT(8) + 2;
    show("guest count 2^8 + 2", &d);
}

/* The counts of endpoints, 2, and of records, 2. */
static void show_counts(struct driver d)
{
    d.state.listed = BIT(32) + 2;
    show("2^32 + 2 endpoints", &d);
    d.state.listed = BIT(8) + 2;
    show("2^8 + 2 endpoints", &d);
    d.state.listed = 2;
    d.state.live = BIT(32) + 2;
    show("live count 2^32 + 2", &d);
    d.state.live = BIT(16) + 2;
    show("live count 2^16 + 2", &d);
}

/* The count of faults, 1. */
static void show_logged(struct driver d)
{
    d.state.logged[0] = BIT(32) + 1;
    show("log count 2^32 + 1", &d);
    d.state.logged[0] = BIT(8) + 1;
    show("log count 2^8 + 1", &d);
    d.state.logged[0] = 1;
    d.state.logged[1] = BIT(63);
    show("guest 1's log count 2^63", &d);
    d.state.logged[1] = 0;
    d.state.lost[1] = (uint32_t)BIT(31);
    show("guest 1's lost count 2^31", &d);
}

/* The fault's reason, 2, and its flags, 257. */
static void show_form(struct driver d)
{
    d.state.reasons[0] = 129;
    show("reason 129", &d);
    d.state.reasons[0] = 130;
    show("reason 130", &d);
    d.state.reasons[0] = 6;
    show("reason 6", &d);
    d.state.reasons[0] = 2;
    d.state.flags[0] = (uint32_t)BIT(31) + 257;
    show("flags with bit 31", &d);
    d.state.flags[0] = (uint32_t)BIT(9) + 257;
    show("flags with bit 9", &d);
}

/* The fault's endpoint, 8. */
static void show_source(struct driver d)
{
    d.state.sources[0] = (uint32_t)BIT(24) + 8;
    show("an endpoint that is 8 by 24 bits", &d);
    d.state.sources[0] = (uint32_t)BIT(16) + 8;
    show("an endpoint that is 8 by 16 bits", &d);
    d.state.sources[0] = (uint32_t)BIT(8) + 8;
    show("an endpoint that is 8 by 8 bits", &d);
}

/* Endpoint 8's owner, 0, and attached flag, 1, and endpoint 9's domain, 0, with a flag of 0. */
static void show_attachments(struct driver d)
{
    d.state.owners[0] = 128;
    show("owner 128", &d);
    d.state.owners[0] = 16;
    show("owner 16", &d);
    d.state.owners[0] = 0;
    d.state.attached[0] = 129;
    show("attached flag 129", &d);
    d.state.attached[0] = 1;
    d.state.domains[0] = (uint32_t)BIT(16) + 1;
    show("attached to a domain that is 1 by 16 bits", &d);
    d.state.domains[0] = 1;
    d.state.domains[1] = (uint32_t)BIT(16);
    show("unattached, with domain 2^16", &d);
}

/* Places not in use, which hold 0. */
static void show_unused(struct driver d)
{
    d.state.settings.shares[3] = (uint32_t)BIT(16);
    show("unused guest place: share 2^16", &d);
    d.state.settings.shares[3] = 0;
    d.state.settings.firsts[2] = BIT(32);
    show("unused guest place: first 2^32", &d);
    d.state.settings.firsts[2] = 0;
    d.state.settings.lasts[3] = BIT(63);
    show("unused guest place: last 2^63", &d);
    d.state.settings.lasts[3] = 0;
    d.state.endpoints[31] = (uint32_t)BIT(24);
    show("unused endpoint place: number 2^24", &d);
    d.state.endpoints[31] = 0;
    d.state.domains[2] = (uint32_t)BIT(31);
    show("unused endpoint place: domain 2^31", &d);
    d.state.domains[2] = 0;
    d.state.addresses[1] = BIT(48);
    show("unused fault place: address 2^48", &d);
    d.state.addresses[1] = 0;
    d.table[10] = BIT(32);
    show("the first word after the records 2^32", &d);
    d.table[10] = 0;
    d.table[1279] = BIT(63);
    show("the last word 2^63", &d);
}

/* The second record, 0x3000 to 0x3fff in domain 1 of guest 0, after the first, which ends at 0x1fff. */
static void show_records_of(struct driver d)
{
    d.table[5] += (uint64_t)256 << 32;
    show("step 1: guest part 256", &d);
    d.table[5] += (uint64_t)1 << 32;
    show("step 1: guest part 257", &d);
    d.table[5] = 1;
    d.table[9] = BIT(63) + 1;
    show("step 2: flags with bit 63", &d);
    d.table[9] = 1;
    d.table[7] = BIT(32) + 0x3fff;
    show("step 5: virt_end past the input range by 2^32", &d);
    d.table[7] = 0x3fff;
    d.table[8] += BIT(32);
    show("step 6: past the window by 2^32", &d);
}

/* With a granularity of 1, the first record ends where the second starts, or before it. */
static void show_one_address(struct driver d)
{
    d.state.settings.mask = 1;
    d.table[2] = 0x2fff;
    show("granularity 1, records that meet", &d);
    d.table[2] = 0x3000;
    show("granularity 1, records that share one address", &d);
}

/* Guest 0 holds 256 records of a page each, and reads a page that is not mapped. */
static void show_full(struct driver d)
{
    EXPECT(ask(&d, 0, unmap(1, 0, UINT64_MAX, 0)) == VIOMMU_STATUS_OK);
    d.state.settings.shares[0] = 256;
    d.state.settings.shares[1] = 0;
    for (uint64_t at = 0x1000; at <= 0x1000 * VIOMMU_RECORDS; at += 0x1000)
        EXPECT(ask(&d, 0, map(1, at, at + 0xfff, 0x80000000 + at, VIOMMU_FLAG_READ)) == VIOMMU_STATUS_OK);
    show("a full table, live count 256", &d);
    d.state.live = 257;
    show("a full table, live count 257", &d);
    d.state.live = 512;
    show("a full table, live count 512", &d);
    d.state.live = BIT(32) + 256;
    show("a full table, live count 2^32 + 256", &d);
}

void show_wide(const struct driver *sound)
{
    show_count(*sound);
    show_counts(*sound);
    show_logged(*sound);
    show_form(*sound);
    show_source(*sound);
    show_attachments(*sound);
    show_unused(*sound);
    show_records_of(*sound);
    show_one_address(*sound);
    show_full(*sound);
}
