/* The mappings that lookups.c makes, and what an access is to give by them: a plan from document 01 alone, which never looks
   at the device's table. */
#ifndef LOOKUPS_PLAN_H
#define LOOKUPS_PLAN_H

#include "viommu.h"

#define PLAN_GUESTS 2
#define PLAN_DOMAINS 8 /* of both guests together */
#define PLAN_PLACES (VIOMMU_RECORDS / PLAN_DOMAINS) /* mappings of each domain, if all are recorded */

/* A domain of a guest's, and the one endpoint that is attached to it. */
struct plan_domain {
    uint8_t guest;
    uint32_t number;
    uint32_t endpoint;
};

/* The domains, in the order of the table. */
extern const struct plan_domain plan_domains[PLAN_DOMAINS];

/* The settings to set up with: all the mappings keep to their windows, shares and ranges. */
struct viommu_settings plan_settings(void);

struct plan_mapping {
    uint64_t start;
    uint64_t end;
    uint64_t phys;
    uint32_t flags;
};

/* The mapping at a place of a domain's, the places ascending by address. */
struct plan_mapping plan_mapping(size_t domain, size_t place);

/* Which mappings are recorded now: 1, or 0 where one is not. */
struct plan {
    uint8_t recorded[PLAN_DOMAINS][PLAN_PLACES];
};

/* Where an access goes through to, with VIOMMU_DONE, or VIOMMU_UNMAPPED and 0. */
struct plan_translation {
    uint8_t number;
    uint64_t address;
};

/* What an access by the domain's endpoint is to give. */
struct plan_translation plan_translate(const struct plan *plan, size_t domain, uint64_t address, uint8_t kind);

#endif
