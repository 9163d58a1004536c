/* One list of the ways to break a sound device. */
#include "garbage_break.h"

static const struct way *const lists[] = {configuration_ways, record_ways, place_ways, region_ways};

/* The way of this number, counted through the lists; null after the last. */
static const struct way *numbered(size_t n)
{
    for (size_t i = 0; i < sizeof lists / sizeof *lists; i++)
        for (const struct way *w = lists[i]; w->name; w++)
            if (n-- == 0)
                return w;
    return NULL;
}

size_t ways_to_break(void)
{
    size_t n = 0;
    while (numbered(n))
        n++;
    return n;
}

int broken(struct random *r, size_t way, struct device *d)
{
    return numbered(way)->apply(d, draw(r));
}

const char *name_of_way(size_t way)
{
    return numbered(way)->name;
}
