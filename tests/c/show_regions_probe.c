/* PROBE, byte for byte: the properties of an endpoint's regions in set-up order, zeros after them, and then the status. */
#include <string.h>

#include "expect.h"
#include "show_regions.h"
#include "shown.h"

/* Prints the bytes of PROBE's writable part: a line for each of the five places that a property can have, the 8 bytes after
   them, and the status. */
static void print_parts(const uint8_t *writable)
{
    static const size_t parts[] = {24, 24, 24, 24, 24, 8, 4};
    for (size_t i = 0; i < sizeof parts / sizeof *parts; i++) {
        printf("  ");
        print_bytes(writable, parts[i]);
        printf("\n");
        writable += parts[i];
    }
}

/* A PROBE with a writable part of bytes 0xff: number, used length and bytes. State and table stay as they were. */
static void show_probe(const char *what, const struct driver *d, uint8_t guest, struct readable r)
{
    struct driver lent = *d;
    struct viommu_guest g = {guest};
    uint8_t writable[VIOMMU_PROBE_BYTES];
    memset(writable, 0xff, sizeof writable);
    struct viommu_request_given given =
        viommu_request(lent.state, lent.table, VIOMMU_TABLE_WORDS, g, r.bytes, r.count, writable, sizeof writable);
    printf("%s: %u %zu\n", what, given.number, given.used);
    print_parts(writable);
    EXPECT(same_state(&given.state, &d->state));
    EXPECT(memcmp(lent.table, d->table, sizeof d->table) == 0);
}

/* PROBE of endpoint 9 with zeros in every byte that is ignored. */
static struct readable probe_of_zeros(void)
{
    struct readable r = probe(9);
    memset(r.bytes + 1, 0, 3);
    memset(r.bytes + 8, 0, 64);
    return r;
}

/* An endpoint that is not listed, by all its bits or by some, or is another guest's. */
static void show_unknown(const struct driver *d)
{
    show_probe("PROBE of 12, not listed", d, 0, probe(12));
    show_probe("PROBE of 0, not listed", d, 0, probe(0));
    show_probe("PROBE of 2^24 + 8, not listed", d, 0, probe(0x01000008));
    show_probe("PROBE of 11, another guest's", d, 0, probe(11));
    show_probe("PROBE of 8, another guest's", d, 1, probe(8));
}

void show_probes(struct driver d)
{
    struct driver unsound = d;
    unsound.state.live = VIOMMU_RECORDS + 1;
    show_probe("PROBE of 8, two regions", &d, 0, probe(8));
    show_probe("PROBE of 9, one region", &d, 0, probe(9));
    show_probe("PROBE of 9, ignored bytes zero", &d, 0, probe_of_zeros());
    show_probe("PROBE of 10, no region", &d, 0, probe(10));
    show_probe("PROBE of 11, four regions", &d, 1, probe(11));
    show_unknown(&d);
    show_probe("PROBE by guest 2", &d, 2, probe(8));
    show_probe("PROBE, unsound", &unsound, 0, probe(8));
    show_asked("9 attached to 2", &d, 0, attach(2, 9, 0));
    show_asked("its domain mapped", &d, 0, map(2, 0, 0xfff, 0x80000000, 3));
    show_probe("PROBE of 9, attached", &d, 0, probe(9));
}
