/* What the files of the stack measurement share: the devices that are called, and the calls. */
#ifndef STACK_H
#define STACK_H

#include "driver.h"

#define PAGE 0x1000
#define RESERVED_PAGE 0xf0000 /* the first page that is reserved, for every endpoint */
#define OWN 64 /* records of each guest, half of them in domain 1 and half in domain 2 */

/* The devices that are called. Of the full ones each guest holds its share, all table places are in use, and endpoint 131
   is unattached; else endpoint 100 + g is guest g's only one in domain 1, and all others are in domain 2. Every endpoint has
   four reserved regions, all past the records but for one of 131, which meets the first record of domain 2. */
struct stack_devices {
    struct driver fresh;   /* just set up */
    struct driver full;    /* table and logs full, one fault lost of each guest */
    struct driver at_most; /* the same with lost counts that have stopped */
    struct driver quiet;   /* table full, logs empty */
    struct driver one;     /* table full, one fault in each log */
    struct driver room;    /* logs full, and guest 0 holds one record less than its share */
    struct driver unsound; /* full, but for the flags of the very last fault */
};

/* The devices, made by calls. */
struct stack_devices stack_devices(void);

/* Gives every call that is measured to `measure` by its name, while the device is ready for it: to be made once. A call ends
   the program where it is not answered as it is to be. */
void every_call(const struct stack_devices *devices, void (*measure)(const char *name, void (*call)(void)));

#endif
