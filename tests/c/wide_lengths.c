/* Counts past 2^32, whose low halves are right: a table of 2^32 + 1,280 words gets 2, lists of 2^32 + 2 entries or of 2^32 words
   of regions too many get 5, and a request's part that is 2^32 bytes too long gets 4; a fetch's buffer of 2^32 bytes has room for
   all faults. All that is lent is there to be read, and its first pages to be written. */
#define _DEFAULT_SOURCE
#include <string.h>
#include <sys/mman.h>

#include "driver.h"
#include "expect.h"
#include "regions.h"
#include "shown.h"

#define WIDE ((size_t)1 << 32)
#define WRITABLE ((size_t)1 << 16) /* first bytes that may be written */

static struct driver device;
static uint64_t *table;     /* WIDE words and a table's */
static uint32_t *endpoints; /* WIDE entries and two */
static uint64_t *regions;   /* WIDE words and those of two endpoints */
static uint8_t *owners, *readable, *writable;

/* So many bytes, all zero. */
static void *room(size_t bytes)
{
    void *at = mmap(NULL, bytes + WRITABLE, PROT_READ, MAP_PRIVATE | MAP_ANONYMOUS | MAP_NORESERVE, -1, 0);
    EXPECT(at != MAP_FAILED);
    EXPECT(mprotect(at, WRITABLE, PROT_READ | PROT_WRITE) == 0);
    return at;
}

/* The table's first words are those of the device. */
static void make(void)
{
    table = room(8 * (WIDE + VIOMMU_TABLE_WORDS));
    endpoints = room(4 * (WIDE + 2));
    owners = room(WIDE + 2);
    regions = room(8 * (WIDE + REGION_WORDS(2)));
    readable = room(WIDE + READABLE_ROOM);
    writable = room(WIDE + VIOMMU_FAULTS * VIOMMU_FAULT_BYTES);
    device.state = shown_start(device.table);
    EXPECT(ask(&device, 0, attach(1, 8, 0)) == VIOMMU_STATUS_OK);
    EXPECT(ask(&device, 0, map(1, 0x1000, 0x1fff, 0x80001000, VIOMMU_FLAG_READ)) == VIOMMU_STATUS_OK);
    EXPECT(reach(&device, 8, 0x5000, VIOMMU_READ).number == VIOMMU_UNMAPPED);
    memcpy(table, device.table, sizeof device.table);
}

/* The state given back and the table's first words are as they were. */
static void check_left(const struct viommu_state *given)
{
    EXPECT(same_state(given, &device.state));
    EXPECT(memcmp(table, device.table, sizeof device.table) == 0);
}

/* Every call on a table that is too long. */
static void check_table(void)
{
    const size_t words = WIDE + VIOMMU_TABLE_WORDS;
    const struct viommu_guest guest = {0};
    const struct viommu_endpoint endpoint = {8};
    const struct readable r = detach(1, 8, 0);
    struct viommu_request_given q = viommu_request(device.state, table, words, guest, r.bytes, r.count, writable, 4);
    EXPECT(q.number == VIOMMU_UNSOUND && q.used == 0);
    check_left(&q.state);
    struct viommu_access_given a = viommu_access(device.state, table, words, endpoint, 0x1000, VIOMMU_READ);
    EXPECT(a.number == VIOMMU_UNSOUND && a.address == 0);
    check_left(&a.state);
    struct viommu_reset_given z = viommu_reset(device.state, table, words, guest);
    EXPECT(z.number == VIOMMU_UNSOUND);
    check_left(&z.state);
    struct viommu_fetch_given f = viommu_fetch(device.state, table, words, guest, writable, VIOMMU_FAULT_BYTES);
    EXPECT(f.number == VIOMMU_UNSOUND && f.count == 0);
    check_left(&f.state);
}

/* A set-up that gets this number, and a zero state. */
static void check_set_up(size_t endpoint_count, size_t owner_count, size_t region_words, size_t words, uint8_t wanted)
{
    struct viommu_set_up_given given = viommu_set_up(shown_settings(), endpoints, endpoint_count, owners, owner_count,
                                                     regions, region_words, table, words);
    EXPECT(given.number == wanted && zero_state(&given.state));
    EXPECT(memcmp(table, device.table, sizeof device.table) == 0);
}

static void check_set_ups(void)
{
    endpoints[0] = 8, endpoints[1] = 9;
    owners[0] = 0, owners[1] = 1;
    const size_t few = REGION_WORDS(2), right = VIOMMU_TABLE_WORDS;
    check_set_up(2, 2, few, WIDE + VIOMMU_TABLE_WORDS, VIOMMU_UNSOUND);
    check_set_up(WIDE + 2, WIDE + 2, few, right, VIOMMU_BAD_CONFIGURATION);
    check_set_up(WIDE + 2, 2, few, right, VIOMMU_BAD_CONFIGURATION);
    check_set_up(2, WIDE + 2, few, right, VIOMMU_BAD_CONFIGURATION);
    check_set_up(2, 2, WIDE + few, right, VIOMMU_BAD_CONFIGURATION);
}

/* A request with parts of these lengths, of which one is too long. */
static void check_request(struct readable r, size_t readable_bytes, size_t writable_bytes)
{
    const struct viommu_guest guest = {0};
    memcpy(readable, r.bytes, r.count);
    memset(writable, 0xee, VIOMMU_PROBE_BYTES);
    struct viommu_request_given given = viommu_request(device.state, table, VIOMMU_TABLE_WORDS, guest, readable,
                                                       readable_bytes, writable, writable_bytes);
    EXPECT(given.number == VIOMMU_WRONG_LENGTH && given.used == 0);
    for (size_t i = 0; i < VIOMMU_PROBE_BYTES; i++)
        EXPECT(writable[i] == 0xee);
    check_left(&given.state);
}

/* The type's lengths, with a readable part that is too long, then with such a writable one. */
static void check_parts(struct readable r)
{
    size_t needed = r.bytes[0] == VIOMMU_PROBE ? VIOMMU_PROBE_BYTES : VIOMMU_STATUS_BYTES;
    check_request(r, WIDE + r.count, needed);
    check_request(r, r.count, WIDE + needed);
}

/* A buffer whose length has a low half of 0. */
static void check_fetch(void)
{
    const struct viommu_guest guest = {0};
    struct viommu_fetch_given given = viommu_fetch(device.state, table, VIOMMU_TABLE_WORDS, guest, writable, WIDE);
    EXPECT(given.number == VIOMMU_DONE && given.count == 1 && given.state.logged[0] == 0);
    EXPECT(writable[0] == VIOMMU_REASON_MAPPING);
}

int main(void)
{
    make();
    check_table();
    check_set_ups();
    check_parts(attach(2, 8, 0));
    check_parts(detach(1, 8, 0));
    check_parts(map(1, 0x2000, 0x2fff, 0x80002000, 1));
    check_parts(unmap(1, 0, UINT64_MAX, 0));
    check_parts(probe(8));
    check_fetch();
    puts("wide lengths: tables, lists, a request's parts and a fetch's buffer of 2^32 elements and more");
    return 0;
}
