/* One line of show_soundness, and what its two calls leave behind. */
#include <string.h>

#include "expect.h"
#include "show_soundness.h"
#include "shown.h"

/* The state without the oldest fault of guest 0, whose places are the first 16. */
static struct viommu_state without_oldest(struct viommu_state s)
{
    for (size_t i = 0; i < VIOMMU_FAULTS; i++) {
        int follows = i + 1 < VIOMMU_FAULTS;
        s.reasons[i] = follows ? s.reasons[i + 1] : 0;
        s.flags[i] = follows ? s.flags[i + 1] : 0;
        s.sources[i] = follows ? s.sources[i + 1] : 0;
        s.addresses[i] = follows ? s.addresses[i + 1] : 0;
    }
    s.logged[0]--;
    return s;
}

/* A refused fetch leaves state and buffer as they were, and one that is done takes the oldest fault out of the log. */
static void check_fetched(const struct driver *d, const struct viommu_fetch_given *given, const uint8_t *buffer)
{
    if (given->number == VIOMMU_DONE) {
        struct viommu_state wanted = without_oldest(d->state);
        EXPECT(given->count == 1);
        EXPECT(same_state(&given->state, &wanted));
        return;
    }
    EXPECT(given->count == 0);
    EXPECT(same_state(&given->state, &d->state));
    for (size_t i = 0; i < VIOMMU_FAULT_BYTES; i++)
        EXPECT(buffer[i] == 0xee);
}

/* The number of a fetch of guest 0, with room for one fault. */
static uint8_t fetch(const struct driver *d)
{
    struct driver lent = *d;
    struct viommu_guest guest = {0};
    uint8_t buffer[VIOMMU_FAULT_BYTES];
    memset(buffer, 0xee, sizeof buffer);
    struct viommu_fetch_given given =
        viommu_fetch(lent.state, lent.table, VIOMMU_TABLE_WORDS, guest, buffer, sizeof buffer);
    EXPECT(memcmp(lent.table, d->table, sizeof d->table) == 0);
    check_fetched(d, &given, buffer);
    return given.number;
}

/* The number of a read by endpoint 8 of the first record's first address, which changes nothing, refused or not. */
static uint8_t access(const struct driver *d)
{
    struct driver lent = *d;
    struct viommu_endpoint endpoint = {8};
    struct viommu_access_given given =
        viommu_access(lent.state, lent.table, VIOMMU_TABLE_WORDS, endpoint, 0x1000, VIOMMU_READ);
    EXPECT(given.address == (given.number == VIOMMU_DONE ? 0x80001000 : 0));
    EXPECT(same_state(&given.state, &d->state));
    EXPECT(memcmp(lent.table, d->table, sizeof d->table) == 0);
    return given.number;
}

void show(const char *what, const struct driver *d)
{
    unsigned fetched = fetch(d);
    unsigned accessed = access(d);
    printf("%s: %u %u\n", what, fetched, accessed);
}
