/* What a PROBE is to write, by the letter of document 02's first request. */
#include <string.h>

#include "garbage.h"

int is_probe(const struct call *c)
{
    return c->entry == REQUEST && c->readable_bytes > 0 && c->readable[0] == VIOMMU_PROBE;
}

/* A number of so many bytes, lowest first. Gives the place after it. */
static uint8_t *put(uint8_t *at, uint64_t number, size_t bytes)
{
    for (size_t i = 0; i < bytes; i++)
        *at++ = (uint8_t)(number >> (8 * i));
    return at;
}

/* The place of the endpoint that is asked for, "endpoint 4" after the head, or listed where it is not this guest's. */
static size_t place_asked(const struct call *c, const struct viommu_state *s)
{
    uint32_t endpoint = c->readable[4] | (uint32_t)c->readable[5] << 8 | (uint32_t)c->readable[6] << 16 |
                        (uint32_t)c->readable[7] << 24;
    size_t i = 0;
    while (i < s->listed && (s->endpoints[i] != endpoint || s->owners[i] != c->guest.number))
        i++;
    return i;
}

/* "Each, in set-up order, is a property of type 1, length 20: subtype, three zeros, start, end. Property bytes left over are
   zero; with NOENT all 128 are written zero." */
void wanted_probe(const struct call *c, const struct viommu_state *s, uint8_t bytes[VIOMMU_PROBE_BYTES])
{
    size_t i = place_asked(c, s);
    uint8_t *at = bytes;
    memset(bytes, 0, VIOMMU_PROBE_BYTES);
    if (i == s->listed) {
        bytes[VIOMMU_PROPERTIES_BYTES] = VIOMMU_STATUS_NOENT;
        return;
    }
    struct viommu_regions q = regions_at(s, i);
    for (size_t j = 0; j < q.count; j++) {
        at = put(at, 1, 2);
        at = put(at, 20, 2);
        at = put(at, q.region[j].subtype, 4);
        at = put(at, q.region[j].start, 8);
        at = put(at, q.region[j].end, 8);
    }
}
