/* Soundness, a clause at a time: each line breaks one clause of a sound state and table and shows the numbers of a fetch
   and of an access, 2 and 2. What stays sound gets 0 and 0. No call leaves state or table unsound, so no journal shows
   it. */
#include "show_soundness.h"

#include "expect.h"
#include "shown.h"

/* Endpoint 8 of guest 0 is attached to domain 1, which maps two pages for reads, and has read 0x5000 in vain; endpoint 9
   of guest 1 is not attached. */
static void make_sound(struct driver *d)
{
    d->state = shown_start(d->table);
    EXPECT(ask(d, 0, attach(1, 8, 0)) == VIOMMU_STATUS_OK);
    EXPECT(ask(d, 0, map(1, 0x1000, 0x1fff, 0x80001000, VIOMMU_FLAG_READ)) == VIOMMU_STATUS_OK);
    EXPECT(ask(d, 0, map(1, 0x3000, 0x3fff, 0x80003000, VIOMMU_FLAG_READ)) == VIOMMU_STATUS_OK);
    EXPECT(reach(d, 8, 0x5000, VIOMMU_READ).number == VIOMMU_UNMAPPED);
}

/* The sound device, then the clauses in the order of the rules, numbers that are wrong in their high bits alone, and reserved
   regions. */
int main(void)
{
    static struct driver sound;
    make_sound(&sound);
    show("sound", &sound);
    show_settings(&sound);
    show_records(&sound);
    show_places(&sound);
    show_faults(&sound);
    show_wide(&sound);
    show_regions(&sound);
    return 0;
}
