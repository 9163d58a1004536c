/* A plan of mappings: all domains have the same addresses and no two mappings the same target, so that a translation tells
   by which mapping it came about. */
#include "lookups_plan.h"

#define PAGE 0x1000
#define PAIRS (PLAN_PLACES / 2)
#define PAIR_BYTES (4 * PAGE)

_Static_assert(PLAN_DOMAINS * PAIRS * 2 == VIOMMU_RECORDS, "the domains' pairs of mappings fill the table");

const struct plan_domain plan_domains[PLAN_DOMAINS] = {
    {0, 0, 40}, {0, 1, 47}, {0, 2, 42}, {0, UINT32_MAX, 45}, {1, 0, 44}, {1, 1, 43}, {1, 9, 46}, {1, UINT32_MAX, 41},
};

struct viommu_settings plan_settings(void)
{
    struct viommu_settings s = {
        .guests = PLAN_GUESTS,
        .mask = PAGE,
        .input = {.start = 0, .end = UINT64_MAX},
        .domains = {.start = 0, .end = UINT32_MAX},
    };
    for (size_t g = 0; g < PLAN_GUESTS; g++) {
        s.shares[g] = VIOMMU_RECORDS / PLAN_GUESTS;
        s.firsts[g] = 0x80000000 + 0x10000000 * g;
        s.lasts[g] = 0x8fffffff + 0x10000000 * g;
    }
    return s;
}

/* The first of a pair's pages. Half of the pairs stand around 2^32, where the low 32 bits begin again, the others up to the
   last address, 2^64 - 1; numbers below zero wrap to the upper end. */
static uint64_t pair_base(uint64_t pair)
{
    if (pair < PAIRS / 2)
        return 0x100000000 + (pair - PAIRS / 4) * PAIR_BYTES;
    return (pair - PAIRS) * PAIR_BYTES;
}

/* Of a pair's four pages the first is a gap, two are the even place's and the last the odd place's, which touches it. Targets
   descend while addresses ascend, and neighbours differ in flags. */
struct plan_mapping plan_mapping(size_t domain, size_t place)
{
    uint64_t base = pair_base(place / 2);
    uint64_t slot = domain * PLAN_PLACES + PLAN_PLACES - 1 - place;
    struct plan_mapping m = {
        .start = place % 2 == 0 ? base + PAGE : base + 3 * PAGE,
        .end = place % 2 == 0 ? base + 3 * PAGE - 1 : base + 4 * PAGE - 1,
        .phys = plan_settings().firsts[plan_domains[domain].guest] + 2 * PAGE * slot,
        .flags = 1 + (domain + place) % 3, /* READ, WRITE, both */
    };
    return m;
}

/* "If a record of the owner's and endpoint's domain covers the address and has the matching flag, it goes through to
   address − virt_start + phys_start. Else 8." */
struct plan_translation plan_translate(const struct plan *plan, size_t domain, uint64_t address, uint8_t kind)
{
    uint32_t flag = kind == VIOMMU_READ ? VIOMMU_FLAG_READ : VIOMMU_FLAG_WRITE;
    for (size_t place = 0; place < PLAN_PLACES; place++) {
        struct plan_mapping m = plan_mapping(domain, place);
        if (plan->recorded[domain][place] && m.start <= address && address <= m.end && (m.flags & flag))
            return (struct plan_translation){VIOMMU_DONE, address - m.start + m.phys};
    }
    return (struct plan_translation){VIOMMU_UNMAPPED, 0};
}
