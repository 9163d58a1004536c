/* What the programs show_*.c share: a small device, sums as digests of state and table, and whether two states are the same. */
#ifndef SHOWN_H
#define SHOWN_H

#include "viommu.h"

/* Two guests with a share of 4 records and a window of 256 MiB each, pages of 4 KiB, domains 1 to 15. */
struct viommu_settings shown_settings(void);

/* A state set up with these, endpoint 8 of guest 0 and endpoint 9 of guest 1, without regions; the table is zeroed. */
struct viommu_state shown_start(uint64_t table[VIOMMU_TABLE_WORDS]);

/* The sum, modulo 2^64, of all numbers of a state, and of words. */
uint64_t sum_state(const struct viommu_state *s);
uint64_t sum_words(const uint64_t *words, size_t count);

/* Whether every number of two states is the same, and whether every number of one is zero. */
int same_state(const struct viommu_state *a, const struct viommu_state *b);
int zero_state(const struct viommu_state *s);

/* Prints bytes in hex, two digits each. */
void print_bytes(const uint8_t *bytes, size_t count);

#endif
