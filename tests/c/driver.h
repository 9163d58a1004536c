/* A device in hand, as a hypervisor holds it: the state that the last call gave back, and the table. */
#ifndef DRIVER_H
#define DRIVER_H

#include "requests.h"
#include "viommu.h"

struct driver {
    struct viommu_state state;
    uint64_t table[VIOMMU_TABLE_WORDS];
};

/* Sets up with one endpoint for each guest, without regions: endpoint 8 + g belongs to guest g. Gives the number. */
uint8_t start(struct driver *d, struct viommu_settings settings);

/* Works a request of types 1 to 4, which is to be answered 0, and gives its status. */
uint8_t ask(struct driver *d, uint8_t guest, struct readable r);

/* Makes an access, and gives its number and address; the fault that it leaves is kept. */
struct viommu_access_given reach(struct driver *d, uint32_t endpoint, uint64_t address, uint8_t kind);

#endif
