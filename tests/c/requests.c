/* The bytes of requests: document 01's "Request layouts", and PROBE's of document 02. */
#include "requests.h"

/* The request with one number more, of so many bytes, lowest first. */
static void put(struct readable *r, uint64_t number, size_t bytes)
{
    for (size_t i = 0; i < bytes; i++)
        r->bytes[r->count++] = (uint8_t)(number >> (8 * i));
}

/* The head and the number after it, a domain or an endpoint. The three bytes after the type are ignored, so they are not zero
   here. */
static struct readable headed(uint8_t type, uint32_t number)
{
    struct readable r = {.count = 0};
    put(&r, type, 1);
    put(&r, 0xc0ffee, 3);
    put(&r, number, 4);
    return r;
}

struct readable attach(uint32_t domain, uint32_t endpoint, uint64_t reserved)
{
    struct readable r = headed(VIOMMU_ATTACH, domain);
    put(&r, endpoint, 4);
    put(&r, reserved, 8);
    return r;
}

struct readable detach(uint32_t domain, uint32_t endpoint, uint64_t reserved)
{
    struct readable r = headed(VIOMMU_DETACH, domain);
    put(&r, endpoint, 4);
    put(&r, reserved, 8);
    return r;
}

struct readable map(uint32_t domain, uint64_t start, uint64_t end, uint64_t phys, uint32_t flags)
{
    struct readable r = headed(VIOMMU_MAP, domain);
    put(&r, start, 8);
    put(&r, end, 8);
    put(&r, phys, 8);
    put(&r, flags, 4);
    return r;
}

struct readable unmap(uint32_t domain, uint64_t start, uint64_t end, uint32_t reserved)
{
    struct readable r = headed(VIOMMU_UNMAP, domain);
    put(&r, start, 8);
    put(&r, end, 8);
    put(&r, reserved, 4);
    return r;
}

/* The 64 bytes after the endpoint are ignored, so they are not zero here. */
struct readable probe(uint32_t endpoint)
{
    struct readable r = headed(VIOMMU_PROBE, endpoint);
    for (uint64_t i = 0; i < 8; i++)
        put(&r, 0xc0ffeec0ffee0000 + i, 8);
    return r;
}
