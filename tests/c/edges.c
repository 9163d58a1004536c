/* What document 01 says "At the edges", phys_start off the granularity, a table that is full, and a lost count that stops. */
#include <string.h>

#include "driver.h"
#include "expect.h"

static struct driver device;

/* One guest, the whole of the 64-bit addresses, and the window of document 01's run. */
static struct viommu_settings wide(uint32_t share)
{
    struct viommu_settings s = {
        .guests = 1,
        .shares = {share},
        .firsts = {0x80000000},
        .lasts = {0x8fffffff},
        .mask = 0x1000,
        .input = {.start = 0, .end = UINT64_MAX},
        .domains = {.start = 0, .end = UINT32_MAX},
    };
    return s;
}

/* "shares summing to 256 pass, 257 is 5"; a sum of 2^32 is above 256 too. */
static void check_shares(void)
{
    struct viommu_settings s = wide(0);
    s.guests = 2;
    s.firsts[1] = 0x90000000;
    s.lasts[1] = 0x9fffffff;
    s.shares[0] = 128, s.shares[1] = 128;
    EXPECT(start(&device, s) == VIOMMU_DONE);
    s.shares[0] = 128, s.shares[1] = 129;
    EXPECT(start(&device, s) == VIOMMU_BAD_CONFIGURATION);
    s.shares[0] = 0x80000000, s.shares[1] = 0x80000000;
    EXPECT(start(&device, s) == VIOMMU_BAD_CONFIGURATION);
}

/* "virt_end 2^64 − 1 with mask 0x1000 is aligned; phys_end equal to the window's end passes, one page more is FAULT" */
static void check_map(void)
{
    EXPECT(start(&device, wide(8)) == VIOMMU_DONE);
    EXPECT(ask(&device, 0, attach(0, 8, 0)) == VIOMMU_STATUS_OK);
    EXPECT(ask(&device, 0, map(0, 0xfffffffffffff000, UINT64_MAX, 0x80000000, 1)) == VIOMMU_STATUS_OK);
    EXPECT(reach(&device, 8, UINT64_MAX, VIOMMU_READ).address == 0x80000fff);
    EXPECT(ask(&device, 0, map(0, 0x1000, 0x1fff, 0x8ffff000, 1)) == VIOMMU_STATUS_OK);
    EXPECT(ask(&device, 0, map(0, 0x2000, 0x3fff, 0x8ffff000, 1)) == VIOMMU_STATUS_FAULT);
    EXPECT(device.state.live == 2);
}

/* "phys_start + virt_end − virt_start wrapping past 2^64 back into the window: step 6 says FAULT." */
static void check_wrap(void)
{
    struct viommu_settings s = wide(8);
    s.firsts[0] = 0;
    s.lasts[0] = UINT64_MAX;
    s.mask = 1;
    EXPECT(start(&device, s) == VIOMMU_DONE);
    EXPECT(ask(&device, 0, attach(0, 8, 0)) == VIOMMU_STATUS_OK);
    EXPECT(ask(&device, 0, map(0, 0x1000, 0x1fff, 0xfffffffffffff000, 1)) == VIOMMU_STATUS_OK);
    EXPECT(ask(&device, 0, map(0, 0x2000, 0x3fff, 0xfffffffffffff000, 1)) == VIOMMU_STATUS_FAULT);
    EXPECT(ask(&device, 0, map(0, 0, UINT64_MAX, 1, 1)) == VIOMMU_STATUS_FAULT);
}

/* The status of a MAP of a page to phys, with this mask and window, after which the record is there or nothing has changed. */
static uint8_t map_to(uint64_t mask, uint64_t first, uint64_t last, uint64_t phys)
{
    struct viommu_settings s = wide(8);
    s.firsts[0] = first;
    s.lasts[0] = last;
    s.mask = mask;
    EXPECT(start(&device, s) == VIOMMU_DONE);
    EXPECT(ask(&device, 0, attach(0, 8, 0)) == VIOMMU_STATUS_OK);
    struct driver before = device;
    uint8_t status = ask(&device, 0, map(0, 0x1000, 0x1fff, phys, VIOMMU_FLAG_READ));
    if (status == VIOMMU_STATUS_OK)
        EXPECT(device.state.live == 1 && device.table[3] == phys);
    else
        EXPECT(memcmp(&device.state, &before.state, sizeof before.state) == 0 &&
               memcmp(device.table, before.table, sizeof before.table) == 0);
    return status;
}

/* "The standard aligns virt_start, phys_start and virt_end + 1. Answer RANGE": step 4, so RANGE outside the window too. */
static void check_aligned(void)
{
    EXPECT(map_to(0x1000, 0x80000000, 0x8fffffff, 0x80000800) == VIOMMU_STATUS_RANGE);
    EXPECT(map_to(0x1000, 0x80000000, 0x8fffffff, 0x8000a001) == VIOMMU_STATUS_RANGE);
    EXPECT(map_to(0x1000, 0x80000000, 0x8fffffff, 0x8000a000) == VIOMMU_STATUS_OK);
    EXPECT(map_to(0x1000, 0x80000000, 0x8fffffff, 0x70000001) == VIOMMU_STATUS_RANGE);
    EXPECT(map_to(0x1000, 0x80000000, 0x8fffffff, 0x70000000) == VIOMMU_STATUS_FAULT);
    EXPECT(map_to(0x1000, 0x80000000, 0x8fffffff, UINT64_MAX) == VIOMMU_STATUS_RANGE);
    EXPECT(map_to(0x1000, 0x80000800, 0x8fffffff, 0x80000800) == VIOMMU_STATUS_RANGE);
    EXPECT(map_to(0x1000, 0x80000800, 0x8fffffff, 0x80000000) == VIOMMU_STATUS_FAULT);
    EXPECT(map_to(0x1000, 0x80000800, 0x8fffffff, 0x80001000) == VIOMMU_STATUS_OK);
    EXPECT(map_to(1, 0x80000000, 0x8fffffff, 0x8000a001) == VIOMMU_STATUS_OK);
    EXPECT(map_to(1, 0x80000000, 0x8fffffff, 0x70000001) == VIOMMU_STATUS_FAULT);
    EXPECT(map_to(0x3000, 0x80000000, 0x8fffffff, 0x80001000) == VIOMMU_STATUS_OK);
    EXPECT(map_to(0x3000, 0x80000000, 0x8fffffff, 0x80000800) == VIOMMU_STATUS_RANGE);
    EXPECT(map_to(0x3000, 0x80000000, 0x8fffffff, 0x70000800) == VIOMMU_STATUS_RANGE);
}

/* Page n is mapped to page n of the window. */
static uint8_t map_page(uint64_t n)
{
    return ask(&device, 0, map(0, 0x1000 * n, 0x1000 * n + 0xfff, 0x80000000 + 0x1000 * n, VIOMMU_FLAG_READ));
}

/* 256 records, mapped from the last page to the first, stand from the first to the last, and each lets a read through. */
static void check_full(void)
{
    struct viommu_guest guest = {0};
    EXPECT(start(&device, wide(256)) == VIOMMU_DONE);
    EXPECT(ask(&device, 0, attach(0, 8, 0)) == VIOMMU_STATUS_OK);
    for (uint64_t n = 256; n > 0; n--)
        EXPECT(map_page(n) == VIOMMU_STATUS_OK);
    EXPECT(viommu_held(device.state, device.table, VIOMMU_TABLE_WORDS, guest) == 256);
    for (uint64_t n = 1; n <= 256; n++) {
        EXPECT(device.table[5 * (n - 1) + 1] == 0x1000 * n);
        EXPECT(reach(&device, 8, 0x1000 * n + 5, VIOMMU_READ).address == 0x80000000 + 0x1000 * n + 5);
    }
    EXPECT(map_page(257) == VIOMMU_STATUS_NOMEM);
    EXPECT(ask(&device, 0, unmap(0, 0x3000, 0x3fff, 0)) == VIOMMU_STATUS_OK);
    EXPECT(map_page(257) == VIOMMU_STATUS_OK);
    EXPECT(ask(&device, 0, detach(0, 8, 0)) == VIOMMU_STATUS_OK);
    EXPECT(device.state.live == 0);
    for (size_t i = 0; i < VIOMMU_TABLE_WORDS; i++)
        EXPECT(device.table[i] == 0);
}

/* The log takes 16 faults; the 65,535 after them are counted as lost, and those after these no more. */
static void check_lost(void)
{
    struct viommu_guest guest = {0};
    EXPECT(start(&device, wide(1)) == VIOMMU_DONE);
    for (uint32_t n = 1; n <= 16 + 65535 + 10; n++) {
        EXPECT(reach(&device, 8, n, VIOMMU_READ).number == VIOMMU_UNATTACHED);
        EXPECT(viommu_lost(device.state, guest) == (n <= 16 ? 0 : n <= 16 + 65535 ? n - 16 : 65535));
    }
    EXPECT(device.state.logged[0] == 16 && device.state.addresses[15] == 16);
}

int main(void)
{
    check_shares();
    check_map();
    check_wrap();
    check_aligned();
    check_full();
    check_lost();
    puts("edges: shares, the last page, the window's end, sums past 2^64, phys_start off the granularity, a full table, the lost count's stop");
    return 0;
}
