/* The devices whose calls' stack is measured. */
#include "expect.h"
#include "stack.h"

static struct viommu_settings settings(void)
{
    struct viommu_settings s = {
        .guests = VIOMMU_GUESTS,
        .mask = PAGE,
        .input = {.start = 0, .end = UINT32_MAX},
        .domains = {.start = 1, .end = 15},
    };
    for (size_t g = 0; g < VIOMMU_GUESTS; g++) {
        s.shares[g] = OWN;
        s.firsts[g] = 0x80000000 + 0x10000000 * g;
        s.lasts[g] = 0x8fffffff + 0x10000000 * g;
    }
    return s;
}

/* Every other page from the first reserved one on, the last of them MSI; endpoint 131 has page 2 for the first. */
static struct viommu_regions regions(size_t place)
{
    struct viommu_regions q = {.count = VIOMMU_REGIONS};
    for (uint64_t j = 0; j < VIOMMU_REGIONS; j++) {
        uint64_t page = j == 0 && place == VIOMMU_ENDPOINTS - 1 ? 2 : RESERVED_PAGE + 2 * j;
        q.region[j] = (struct viommu_region){j == 3, PAGE * page, PAGE * page + PAGE - 1};
    }
    return q;
}

static void set_up(struct driver *d)
{
    uint32_t endpoints[VIOMMU_ENDPOINTS];
    uint8_t owners[VIOMMU_ENDPOINTS];
    struct viommu_regions reserved[VIOMMU_ENDPOINTS];
    for (size_t i = 0; i < VIOMMU_ENDPOINTS; i++)
        endpoints[i] = 100 + (uint32_t)i, owners[i] = i % VIOMMU_GUESTS, reserved[i] = regions(i);
    struct viommu_set_up_given given =
        viommu_set_up(settings(), endpoints, VIOMMU_ENDPOINTS, owners, VIOMMU_ENDPOINTS, &reserved[0].count,
                      VIOMMU_REGION_PLACES, d->table, VIOMMU_TABLE_WORDS);
    EXPECT(given.number == VIOMMU_DONE);
    d->state = given.state;
}

/* Each guest's pages 2, 4 and so on are mapped, those with even numbers of a record in domain 1, the others in domain 2. */
static void fill_table(struct driver *d)
{
    for (uint32_t i = 0; i + 1 < VIOMMU_ENDPOINTS; i++)
        EXPECT(ask(d, i % VIOMMU_GUESTS, attach(i < VIOMMU_GUESTS ? 1 : 2, 100 + i, 0)) == VIOMMU_STATUS_OK);
    for (uint8_t g = 0; g < VIOMMU_GUESTS; g++)
        for (uint64_t n = 1; n <= OWN; n++)
            EXPECT(ask(d, g, map(1 + n % 2, 2 * PAGE * n, 2 * PAGE * n + PAGE - 1, settings().firsts[g], 1)) == 0);
    EXPECT(d->state.live == VIOMMU_RECORDS);
}

/* So many accesses of each guest's are blocked. */
static void block(struct driver *d, size_t count)
{
    for (uint32_t g = 0; g < VIOMMU_GUESTS; g++)
        for (size_t n = 0; n < count; n++)
            EXPECT(reach(d, 100 + g, 0, VIOMMU_WRITE).number == VIOMMU_UNMAPPED);
}

struct stack_devices stack_devices(void)
{
    struct stack_devices d;
    set_up(&d.fresh);
    d.quiet = d.fresh;
    fill_table(&d.quiet);
    d.one = d.quiet;
    block(&d.one, 1);
    d.full = d.quiet;
    block(&d.full, VIOMMU_FAULTS + 1);
    EXPECT(d.full.state.logged[3] == VIOMMU_FAULTS && d.full.state.lost[3] == 1);
    d.room = d.full;
    EXPECT(ask(&d.room, 0, unmap(2, 2 * PAGE, 3 * PAGE - 1, 0)) == VIOMMU_STATUS_OK);
    d.at_most = d.full;
    for (size_t g = 0; g < VIOMMU_GUESTS; g++)
        d.at_most.state.lost[g] = VIOMMU_LOST_LIMIT;
    d.unsound = d.full;
    d.unsound.state.flags[VIOMMU_FAULT_PLACES - 1] = 0;
    return d;
}
