/* What the files of the run bit by bit share: devices of several kinds, each sound. */
#ifndef BITS_H
#define BITS_H

#include "garbage.h"

/* Makes a device of this kind, counted from 0; 0 where there are no more kinds. */
int make_kind(size_t kind, struct device *d);

#endif
