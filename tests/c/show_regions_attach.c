/* ATTACH: "to a domain the endpoint isn't in whose records overlap the endpoint's regions is UNSUPP, after the RANGE step, and
   changes nothing". */
#include "show_regions.h"

/* Endpoint 10 is in domain 1 with a record of 0x5000 to 0x5fff, where endpoint 9's region lies; 9 is alone in domain 2 with a
   record of 0x1000 to 0x1fff, where one of endpoint 8's lies. */
static void make(struct driver *d)
{
    show_asked("10 attached to 1", d, 0, attach(1, 10, 0));
    show_asked("its domain mapped", d, 0, map(1, 0x5000, 0x5fff, 0x80005000, VIOMMU_FLAG_READ));
    show_asked("9 attached to 2", d, 0, attach(2, 9, 0));
    show_asked("its domain mapped", d, 0, map(2, 0x1000, 0x1fff, 0x80001000, VIOMMU_FLAG_READ));
}

/* The move of the last endpoint of a domain, refused: endpoint 9 stays in its domain, and its record stays too. */
static void show_refused_move(struct driver *d)
{
    show_asked("9 attached to 1", d, 0, attach(1, 9, 0));
    show_read("9 reads its record", d, 9, 0x1234);
    show_asked("9 attached to 1 with reserved bits", d, 0, attach(1, 9, 1));
    show_asked("9 attached to 1 by guest 1", d, 1, attach(1, 9, 0));
    show_asked("9 attached to 16", d, 0, attach(16, 9, 0));
    show_asked("9 attached to 2 again", d, 0, attach(2, 9, 0));
    show_read("9 reads its record", d, 9, 0x1fff);
}

/* Endpoint 8, from no domain and from another. */
static void show_refused(struct driver *d)
{
    show_asked("8 attached to 2 from none", d, 0, attach(2, 8, 0));
    show_read("8 reads", d, 8, 0x1234);
    show_asked("8 attached to 1", d, 0, attach(1, 8, 0));
    show_asked("8 attached to 2 from 1", d, 0, attach(2, 8, 0));
    show_read("8 reads", d, 8, 0x5678);
}

/* Without the record in its way each goes through, beside a record too; so does another guest's, in a domain of that number. */
static void show_accepted(struct driver *d)
{
    show_asked("2's record gone", d, 0, unmap(2, 0x1000, 0x1fff, 0));
    show_asked("8 attached to 2 now", d, 0, attach(2, 8, 0));
    show_asked("1 mapped beside 9's region", d, 0, map(1, 0x6000, 0x6fff, 0x80006000, VIOMMU_FLAG_READ));
    show_asked("9 attached to 1 still", d, 0, attach(1, 9, 0));
    show_asked("1's first record gone", d, 0, unmap(1, 0x5000, 0x5fff, 0));
    show_asked("9 attached to 1 now", d, 0, attach(1, 9, 0));
    show_asked("1 mapped where 9's region lies", d, 0, map(1, 0x5000, 0x5fff, 0x80005000, VIOMMU_FLAG_READ));
    show_asked("1 mapped where 11's region lies", d, 0, map(1, 0x3000, 0x3fff, 0x80003000, VIOMMU_FLAG_READ));
    show_asked("11 attached to guest 1's 1", d, 1, attach(1, 11, 0));
}

void show_attaches(struct driver d)
{
    make(&d);
    show_refused_move(&d);
    show_refused(&d);
    show_accepted(&d);
}
