/* The bytes of requests, as a guest's driver would put them, little-endian. */
#ifndef REQUESTS_H
#define REQUESTS_H

#include "viommu.h"

#define READABLE_ROOM 72 /* bytes of the longest request */

/* A request's readable part: the first bytes of the array. */
struct readable {
    uint8_t bytes[READABLE_ROOM];
    size_t count;
};

struct readable attach(uint32_t domain, uint32_t endpoint, uint64_t reserved);
struct readable detach(uint32_t domain, uint32_t endpoint, uint64_t reserved);
struct readable map(uint32_t domain, uint64_t start, uint64_t end, uint64_t phys, uint32_t flags);
struct readable unmap(uint32_t domain, uint64_t start, uint64_t end, uint32_t reserved);
struct readable probe(uint32_t endpoint);

#endif
