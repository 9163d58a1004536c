/* A state that is not sound, with a number unlike the others at every place, comes back as it was handed in, with number 2;
   and the two queries, which test no soundness, read it where the header says. */
#include <string.h>

#include "expect.h"
#include "layout.h"

#define BUFFER 100

static struct viommu_state state;
static uint64_t table[VIOMMU_TABLE_WORDS];
static uint8_t readable[BUFFER];
static uint8_t writable[BUFFER];

/* Byte i of all: 251 is prime, so that places a power of two apart differ. */
static void pattern(void *place, size_t bytes, size_t first)
{
    for (size_t i = 0; i < bytes; i++)
        ((uint8_t *)place)[i] = (uint8_t)((first + i) % 251 + 1);
}

static void fill(void)
{
    pattern(&state, sizeof state, 0);
    pattern(table, sizeof table, 7);
    pattern(readable, sizeof readable, 77);
    pattern(writable, sizeof writable, 177);
}

/* Nothing changed: state, table and both buffers have the pattern still. */
static void check_unchanged(struct viommu_state given)
{
    static struct viommu_state old_state;
    static uint64_t old_table[VIOMMU_TABLE_WORDS];
    static uint8_t old_readable[BUFFER];
    static uint8_t old_writable[BUFFER];
    pattern(&old_state, sizeof old_state, 0);
    pattern(old_table, sizeof old_table, 7);
    pattern(old_readable, sizeof old_readable, 77);
    pattern(old_writable, sizeof old_writable, 177);
    EXPECT(memcmp(&given, &old_state, sizeof state) == 0);
    EXPECT(memcmp(&state, &old_state, sizeof state) == 0);
    EXPECT(memcmp(table, old_table, sizeof table) == 0);
    EXPECT(memcmp(readable, old_readable, sizeof readable) == 0);
    EXPECT(memcmp(writable, old_writable, sizeof writable) == 0);
}

/* The guest count is above 255, so no guest number is refused with 1. */
static void check_entries(void)
{
    struct viommu_guest guest = {255};
    struct viommu_endpoint e = {state.endpoints[0]};
    struct viommu_request_given r =
        viommu_request(state, table, VIOMMU_TABLE_WORDS, guest, readable, BUFFER, writable, BUFFER);
    EXPECT(r.number == VIOMMU_UNSOUND && r.used == 0);
    check_unchanged(r.state);
    struct viommu_access_given a = viommu_access(state, table, VIOMMU_TABLE_WORDS, e, 0x1234, VIOMMU_WRITE);
    EXPECT(a.number == VIOMMU_UNSOUND && a.address == 0);
    check_unchanged(a.state);
    struct viommu_reset_given z = viommu_reset(state, table, VIOMMU_TABLE_WORDS, guest);
    EXPECT(z.number == VIOMMU_UNSOUND);
    check_unchanged(z.state);
    struct viommu_fetch_given f = viommu_fetch(state, table, VIOMMU_TABLE_WORDS, guest, writable, BUFFER);
    EXPECT(f.number == VIOMMU_UNSOUND && f.count == 0);
    check_unchanged(f.state);
}

/* The lost count of each number that a guest may have, and 0 for the others. */
static void check_lost(void)
{
    for (unsigned g = 0; g < 256; g++) {
        struct viommu_guest guest = {(uint8_t)g};
        EXPECT(viommu_lost(state, guest) == (g < VIOMMU_GUESTS ? state.lost[g] : 0));
    }
}

/* Record i is made guest i % 7's. Of the first n records, guest g then holds one for each i below n with i % 7 == g. */
static void check_held(size_t live, size_t words, size_t n)
{
    state.live = live;
    for (size_t i = 0; i < VIOMMU_RECORDS; i++)
        table[VIOMMU_RECORD_WORDS * i] = ((uint64_t)(i % 7) << 32) + i;
    for (unsigned g = 0; g < 8; g++) {
        struct viommu_guest guest = {(uint8_t)g};
        size_t wanted = g < 7 ? (n + 6 - g) / 7 : 0;
        EXPECT(viommu_held(state, table, words, guest) == wanted);
    }
}

int main(void)
{
    fill();
    check_entries();
    check_lost();
    check_held(10, VIOMMU_TABLE_WORDS, 10);
    check_held(SIZE_MAX, VIOMMU_TABLE_WORDS, 256);
    check_held(SIZE_MAX, VIOMMU_TABLE_WORDS - 1, 255);
    check_held(SIZE_MAX, 4, 0);
    check_held(SIZE_MAX, 0, 0);
    puts("handed in: an unsound state comes back byte for byte, with number 2, by all four entries; held and lost");
    return 0;
}
