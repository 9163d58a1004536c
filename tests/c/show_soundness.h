/* What the files of show_soundness share: the line that shows whether a device in hand is sound. */
#ifndef SHOW_SOUNDNESS_H
#define SHOW_SOUNDNESS_H

#include "driver.h"

/* Prints what was done to the device, and the numbers of a fetch of guest 0 and of a read by endpoint 8. */
void show(const char *what, const struct driver *d);

/* Each shows the clauses of one subject, on copies of a device that is sound. */
void show_settings(const struct driver *sound);
void show_records(const struct driver *sound);
void show_places(const struct driver *sound);
void show_faults(const struct driver *sound);
void show_wide(const struct driver *sound);
void show_regions(const struct driver *sound);

#endif
