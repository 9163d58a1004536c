/* What the files of show_regions share: a device whose endpoints have reserved regions, and the line of one request. */
#ifndef SHOW_REGIONS_H
#define SHOW_REGIONS_H

#include "driver.h"

#define RESERVED VIOMMU_REGION_RESERVED
#define MSI VIOMMU_REGION_MSI

/* The device, just set up: endpoints 8, 9 and 10 of guest 0, and endpoint 11 of guest 1. Endpoint 8 has an MSI region of
   0xfee00000 to 0xfeefffff and then a region of address 0x1000 alone, endpoint 9 one of 0x5fff alone, endpoint 10 none, and
   endpoint 11 four. */
struct driver regions_start(void);

/* A request of types 1 to 4, its number, used length and status. Unless it is answered OK, state and table are as they were, and
   the regions are in any case. */
void show_asked(const char *what, struct driver *d, uint8_t guest, struct readable r);

/* A read by an endpoint, its number and the address. */
void show_read(const char *what, struct driver *d, uint32_t endpoint, uint64_t address);

/* The bytes of PROBE; MAPs on and beside regions; ATTACHes to domains whose records meet regions. */
void show_probes(struct driver d);
void show_maps(struct driver d);
void show_attaches(struct driver d);

#endif
