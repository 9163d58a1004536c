/* Accesses around every planned mapping, recorded or not, for every number of live records from none to a full table: first
   while MAPs fill it, then while UNMAPs empty it, both in other orders than the table's. */
#include <inttypes.h>

#include "driver.h"
#include "expect.h"
#include "lookups_plan.h"
#include "regions.h"

static struct driver device;
static struct plan plan;     /* of the mappings, those that the device is to have now */
static size_t live;          /* their number */
static unsigned long asked;  /* number of accesses so far */
static unsigned long passed; /* those of them that went through */

static void set_up(void)
{
    uint32_t endpoints[PLAN_DOMAINS];
    uint8_t owners[PLAN_DOMAINS];
    for (size_t d = 0; d < PLAN_DOMAINS; d++)
        endpoints[d] = plan_domains[d].endpoint, owners[d] = plan_domains[d].guest;
    struct viommu_set_up_given given =
        viommu_set_up(plan_settings(), endpoints, PLAN_DOMAINS, owners, PLAN_DOMAINS, no_regions,
                      REGION_WORDS(PLAN_DOMAINS), device.table, VIOMMU_TABLE_WORDS);
    EXPECT(given.number == VIOMMU_DONE);
    device.state = given.state;
    for (size_t d = 0; d < PLAN_DOMAINS; d++)
        EXPECT(ask(&device, owners[d], attach(plan_domains[d].number, endpoints[d], 0)) == VIOMMU_STATUS_OK);
}

/* Records the mapping that is to stand at this place of the full table. */
static void add(size_t record)
{
    size_t d = record / PLAN_PLACES, place = record % PLAN_PLACES;
    struct plan_mapping m = plan_mapping(d, place);
    EXPECT(ask(&device, plan_domains[d].guest, map(plan_domains[d].number, m.start, m.end, m.phys, m.flags)) ==
           VIOMMU_STATUS_OK);
    plan.recorded[d][place] = 1;
    live++;
    EXPECT(device.state.live == live);
}

/* Takes that mapping away again. */
static void take(size_t record)
{
    size_t d = record / PLAN_PLACES, place = record % PLAN_PLACES;
    struct plan_mapping m = plan_mapping(d, place);
    EXPECT(ask(&device, plan_domains[d].guest, unmap(plan_domains[d].number, m.start, m.end, 0)) == VIOMMU_STATUS_OK);
    plan.recorded[d][place] = 0;
    live--;
    EXPECT(device.state.live == live);
}

/* One access, which is to give what the plan says. */
static void check(size_t domain, uint64_t address, uint8_t kind)
{
    const struct plan_domain *d = &plan_domains[domain];
    struct plan_translation wanted = plan_translate(&plan, domain, address, kind);
    struct viommu_access_given given = reach(&device, d->endpoint, address, kind);
    asked++;
    passed += wanted.number == VIOMMU_DONE;
    if (given.number == wanted.number && given.address == wanted.address)
        return;
    fprintf(stderr,
            "lookups: with %zu live records endpoint %" PRIu32 ", in domain %" PRIu32 " of guest %u, %s 0x%" PRIx64
            ": number %u and address 0x%" PRIx64 ", where the plan has %u and 0x%" PRIx64 "\n",
            live, d->endpoint, d->number, d->guest, kind == VIOMMU_READ ? "reads" : "writes", address, given.number,
            given.address, wanted.number, wanted.address);
    exit(1);
}

static void check_both(size_t domain, uint64_t address)
{
    check(domain, address, VIOMMU_READ);
    check(domain, address, VIOMMU_WRITE);
}

/* The byte below a mapping, its first, one inside, its last, and the byte after it where there is one. */
static void check_around(size_t domain, size_t place)
{
    struct plan_mapping m = plan_mapping(domain, place);
    check_both(domain, m.start - 1);
    check_both(domain, m.start);
    check_both(domain, m.start + 0x567);
    check_both(domain, m.end);
    if (m.end != UINT64_MAX)
        check_both(domain, m.end + 1);
}

/* In every domain, around every place, and the ends of the addresses: nothing is mapped at 0, and something at times at the
   other end. */
static void check_all(void)
{
    for (size_t d = 0; d < PLAN_DOMAINS; d++) {
        check_both(d, 0);
        check_both(d, UINT64_MAX);
        for (size_t place = 0; place < PLAN_PLACES; place++)
            check_around(d, place);
    }
}

/* Number n of an order of all records that goes over the table in steps: each comes once if the step has no divisor in common
   with their number, and if one came twice its MAP or UNMAP would leave another live count. */
static size_t in_steps(size_t n, size_t step, size_t first)
{
    return (first + n * step) % VIOMMU_RECORDS;
}

int main(void)
{
    set_up();
    check_all();
    for (size_t n = 0; n < VIOMMU_RECORDS; n++) {
        add(in_steps(n, 97, 200)); /* the first are of higher domains than domain 0 of guest 0 */
        check_all();
    }
    for (size_t n = 0; n < VIOMMU_RECORDS; n++) {
        take(in_steps(n, 45, 20));
        check_all();
    }
    EXPECT(live == 0 && passed > 0 && passed < asked);
    printf("lookups: %lu accesses as planned, at every live count from 0 to %d and down again, %lu went through\n", asked,
           VIOMMU_RECORDS, passed);
    return 0;
}
