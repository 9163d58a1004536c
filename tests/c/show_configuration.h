/* What the files of show_configuration share: the lists, and the line of one set-up. */
#ifndef SHOW_CONFIGURATION_H
#define SHOW_CONFIGURATION_H

#include "viommu.h"

#define LIST_ROOM (VIOMMU_ENDPOINTS + 1) /* entries of the longest list */

/* The lists: the first entries of each array, and of the regions the first words. */
struct lists {
    uint32_t endpoints[LIST_ROOM];
    size_t endpoint_count;
    uint8_t owners[LIST_ROOM];
    size_t owner_count;
    struct viommu_regions regions[LIST_ROOM];
    size_t region_words;
};

/* Sets up on a table of sevens and prints a line. */
void set_up(const char *what, struct viommu_settings c, struct lists l);

/* The first so many of endpoints 8 and 9, and of their owners, guests 0 and 1, without regions. */
struct lists listed(size_t endpoint_count, size_t owner_count);

/* Reserved regions that are good, and such as are not. */
void show_good_regions(struct viommu_settings good);
void show_bad_regions(struct viommu_settings good);

#endif
