/* Reserved regions: as they stand in a state, and as they are drawn for a set-up. */
#include <string.h>

#include "garbage.h"

struct viommu_regions regions_at(const struct viommu_state *s, size_t place)
{
    struct viommu_regions q;
    memcpy(&q, s->regions + VIOMMU_ENDPOINT_REGION_WORDS * place, sizeof q);
    return q;
}

int ranges_meet(uint64_t a, uint64_t b, uint64_t c, uint64_t d)
{
    return a <= d && c <= b;
}

/* The number of regions, and the words of as many. */
size_t region_words_used(const struct viommu_regions *q)
{
    return 1 + VIOMMU_REGION_WORDS * q->count;
}

/* Regions of one endpoint: region j in the j-th of four runs of 16 grains, counted from any one; one is MSI, or none. */
static struct viommu_regions draw_some(struct random *r, const struct viommu_settings *s)
{
    uint64_t grain = s->mask & -s->mask, run = 16 * grain;
    size_t first = below(r, VIOMMU_REGIONS), msi = below(r, VIOMMU_REGIONS + 1);
    struct viommu_regions q = {.count = 1 + below(r, VIOMMU_REGIONS)};
    for (size_t j = 0; j < VIOMMU_REGIONS; j++) {
        uint64_t start = below(r, run), most = once_in(r, 4) ? run : grain;
        uint64_t more = below(r, run - start < most ? run - start : most);
        q.region[j].subtype = j == msi;
        q.region[j].start = s->input.start / grain * grain + run * ((first + j) % VIOMMU_REGIONS) + start;
        q.region[j].end = q.region[j].start + more;
    }
    return q;
}

/* Half of the endpoints have none. Places from the number on may hold anything. */
void draw_regions(struct random *r, const struct viommu_settings *s, struct lists *l)
{
    l->region_words = VIOMMU_ENDPOINT_REGION_WORDS * l->endpoint_count;
    scatter(r, l->regions, sizeof l->regions);
    for (size_t i = 0; i < l->endpoint_count; i++) {
        if (once_in(r, 2))
            l->regions[i] = draw_some(r, s);
        else
            l->regions[i].count = 0;
    }
}

void spoil_regions(struct random *r, struct lists *l)
{
    struct viommu_regions *q = &l->regions[below(r, l->endpoint_count + 1)];
    struct viommu_region *one = &q->region[below(r, VIOMMU_REGIONS)];
    switch (below(r, 7)) {
    case 0: l->region_words = below(r, VIOMMU_ENDPOINT_REGION_WORDS * LIST_MOST + 1); break;
    case 1: l->region_words ^= 1; break;
    case 2: q->count = once_in(r, 2) ? edge(r) : q->count + 1; break;
    case 3: one->subtype = once_in(r, 2) ? edge(r) : VIOMMU_REGION_MSI; break;
    case 4: one->start = once_in(r, 2) ? edge(r) : one->end + 1; break;
    case 5: one->end = once_in(r, 2) ? edge(r) : q->region[below(r, VIOMMU_REGIONS)].start; break;
    default: *one = q->region[below(r, VIOMMU_REGIONS)]; break;
    }
}
