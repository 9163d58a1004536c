/* Reserved regions as set-up is lent them, for the programs whose endpoints have none. */
#ifndef REGIONS_H
#define REGIONS_H

#include "viommu.h"

/* The words of the regions of so many endpoints. */
#define REGION_WORDS(endpoints) (VIOMMU_ENDPOINT_REGION_WORDS * (endpoints))

/* No region, for as many endpoints as there may be. */
static const uint64_t no_regions[VIOMMU_REGION_PLACES];

#endif
