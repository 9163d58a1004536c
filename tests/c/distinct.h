/* A device of four guests and 32 endpoints in which every number that a caller chooses is unlike every other. */
#ifndef DISTINCT_H
#define DISTINCT_H

#include "viommu.h"

struct viommu_settings distinct_settings(void);

/* The number, the owner and the domain of the endpoint at place i. */
uint32_t distinct_endpoint(size_t i);
uint8_t distinct_owner(size_t i);
uint32_t distinct_domain(size_t i);

/* The regions of the endpoint at place i, as set-up is lent them: 3, 4, 0, 1, 2, 3 and so on, and all four places filled. */
struct viommu_regions distinct_regions(size_t i);

/* The fault that is to stand at a place of the logs. */
struct fault {
    uint8_t reason;
    uint8_t kind; /* of the access */
    uint32_t flags;
    uint32_t source;
    uint64_t address;
};

struct fault distinct_fault(size_t place);

/* The five words of the one record that each guest maps. */
struct record {
    uint64_t words[VIOMMU_RECORD_WORDS];
};

struct record distinct_record(uint8_t guest);

#endif
