/* What the files of show_lengths share: pieces of a line. */
#ifndef SHOW_LENGTHS_H
#define SHOW_LENGTHS_H

#include "driver.h"

/* Prints what was done, and the number given back. */
void print_number(const char *what, uint8_t number);

/* Prints the value beside the number, in hex. */
void print_value(uint64_t value);

/* Prints the lent bytes, in hex. */
void print_lent(const uint8_t *bytes, size_t count);

/* Prints the sums of the state's numbers and of the table's words, in hex, and ends the line. */
void print_sums(const struct viommu_state *s, const uint64_t *table, size_t words);

/* Every call on tables of each length, and requests with parts of each length, on a device with one mapping. */
void show_tables(const struct driver *mapped);
void show_parts(const struct driver *mapped);

#endif
