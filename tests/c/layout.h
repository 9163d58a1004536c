/* Where each field stands, counted by hand from the widths that the header's comments give; told at compile time. */
#ifndef LAYOUT_H
#define LAYOUT_H

#include "viommu.h"

#define AT(type, field, offset) _Static_assert(offsetof(struct type, field) == (offset), #type "." #field)
#define SIZE(type, bytes) _Static_assert(sizeof(struct type) == (bytes), #type)

_Static_assert(sizeof(size_t) == 8, "a count has 64 bits");

SIZE(viommu_guest, 1);
SIZE(viommu_endpoint, 4);

AT(viommu_input_range, start, 0);
AT(viommu_input_range, end, 8);
SIZE(viommu_input_range, 16);

AT(viommu_domain_range, start, 0);
AT(viommu_domain_range, end, 4);
SIZE(viommu_domain_range, 8);

AT(viommu_region, subtype, 0);
AT(viommu_region, start, 8);
AT(viommu_region, end, 16);
SIZE(viommu_region, 24);

/* Thirteen words, as set-up reads them: an array of these is the list of words that it is lent. */
AT(viommu_regions, count, 0);
AT(viommu_regions, region, 8);
SIZE(viommu_regions, 104);

AT(viommu_settings, guests, 0);
AT(viommu_settings, shares, 8);
AT(viommu_settings, firsts, 24);
AT(viommu_settings, lasts, 56);
AT(viommu_settings, mask, 88);
AT(viommu_settings, input, 96);
AT(viommu_settings, domains, 112);
SIZE(viommu_settings, 120);

AT(viommu_state, settings, 0);
AT(viommu_state, listed, 120);
AT(viommu_state, endpoints, 128);
AT(viommu_state, owners, 256);
AT(viommu_state, attached, 288);
AT(viommu_state, domains, 320);
AT(viommu_state, regions, 448);
AT(viommu_state, live, 3776);
AT(viommu_state, logged, 3784);
AT(viommu_state, lost, 3816);
AT(viommu_state, reasons, 3832);
AT(viommu_state, flags, 3896);
AT(viommu_state, sources, 4152);
AT(viommu_state, addresses, 4408);

/* The last field's 512 bytes end at 4920, and each field starts where the one before it ends: a state has no padding, so
   two states are compared as bytes. */
SIZE(viommu_state, 4920);

AT(viommu_set_up_given, state, 0);
AT(viommu_set_up_given, number, 4920);
SIZE(viommu_set_up_given, 4928);

AT(viommu_request_given, state, 0);
AT(viommu_request_given, number, 4920);
AT(viommu_request_given, used, 4928);
SIZE(viommu_request_given, 4936);

AT(viommu_access_given, state, 0);
AT(viommu_access_given, number, 4920);
AT(viommu_access_given, address, 4928);
SIZE(viommu_access_given, 4936);

AT(viommu_reset_given, state, 0);
AT(viommu_reset_given, number, 4920);
SIZE(viommu_reset_given, 4928);

AT(viommu_fetch_given, state, 0);
AT(viommu_fetch_given, number, 4920);
AT(viommu_fetch_given, count, 4928);
SIZE(viommu_fetch_given, 4936);

#endif
