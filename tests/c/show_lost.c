/* A guest's lost count: it rises by one for each fault that finds the log full, stops at 65,535, stays over a fetch, and
   is 0 after a reset. No request and no fetch shows it, so no journal does. */
#include <string.h>

#include "expect.h"
#include "garbage.h"
#include "shown.h"

static uint64_t table[VIOMMU_TABLE_WORDS];
static struct viommu_state state; /* as the last call gave it back */
static struct device wanted;      /* state and table as the calls are to leave them */

/* Keeps the state that a call gave back; it and the table are to be what this call, so answered, is to leave. */
static void keep(const struct viommu_state *given, const struct call *c, uint8_t number)
{
    wanted_effect(c, number, &wanted);
    EXPECT(same_state(given, &wanted.state));
    EXPECT(memcmp(table, wanted.table, sizeof table) == 0);
    state = *given;
}

/* A guest's lost count, as the library tells it. */
static uint32_t lost(uint8_t guest)
{
    struct viommu_guest g = {guest};
    return viommu_lost(state, g);
}

/* Prints what happened, then the lost counts of the two guests. */
static void print_lost(const char *what)
{
    printf("%s: %u %u\n", what, lost(0), lost(1));
}

/* So many reads of an endpoint that is not attached: each is a fault of its owner. Then the lost counts. */
static void faults(const char *what, uint32_t endpoint, uint32_t n)
{
    struct call c = {.entry = ACCESS, .endpoint = {endpoint}, .address = 0x1000, .kind = VIOMMU_READ};
    for (uint32_t i = 0; i < n; i++) {
        struct viommu_access_given given =
            viommu_access(state, table, VIOMMU_TABLE_WORDS, c.endpoint, c.address, c.kind);
        EXPECT(given.number == VIOMMU_UNATTACHED && given.address == 0);
        keep(&given.state, &c, VIOMMU_UNATTACHED);
    }
    print_lost(what);
}

/* The log fills, then the count rises to its end and stays there. Guest 1's is its own. */
static void rise(void)
{
    faults("16 faults of guest 0, all kept", 8, 16);
    faults("the 17th", 8, 1);
    faults("65533 more", 8, 65533);
    faults("1 more", 8, 1);
    faults("2 more", 8, 2);
    faults("18 faults of guest 1", 9, 18);
}

/* A fetch makes room in the log and leaves the count. */
static void fetch_two(void)
{
    uint8_t buffer[2 * VIOMMU_FAULT_BYTES] = {0};
    struct call c = {.entry = FETCH, .guest = {0}, .writable_bytes = sizeof buffer};
    struct viommu_fetch_given given =
        viommu_fetch(state, table, VIOMMU_TABLE_WORDS, c.guest, buffer, sizeof buffer);
    EXPECT(given.number == VIOMMU_DONE && given.count == 2);
    keep(&given.state, &c, VIOMMU_DONE);
    print_lost("2 faults of guest 0 fetched");
    faults("3 more of guest 0, 2 kept", 8, 3);
}

/* A reset, and the lost counts then. */
static void reset(const char *what, uint8_t guest)
{
    struct call c = {.entry = RESET, .guest = {guest}};
    struct viommu_reset_given given = viommu_reset(state, table, VIOMMU_TABLE_WORDS, c.guest);
    EXPECT(given.number == VIOMMU_DONE);
    keep(&given.state, &c, VIOMMU_DONE);
    print_lost(what);
}

/* A reset ends the count, for its own guest alone; a guest that there is not has none. */
static void fall(void)
{
    reset("guest 0 reset", 0);
    faults("17 faults of guest 0", 8, 17);
    reset("guest 1 reset", 1);
    printf("a guest that there is not: %u\n", lost(2));
}

int main(void)
{
    state = shown_start(table);
    wanted.state = state;
    print_lost("set up");
    rise();
    fetch_two();
    fall();
    return 0;
}
