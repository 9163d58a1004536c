/* Every number that a guest may have, on devices of one to four guests: from the guest count on each gets 1 by every call under
   a guest's number, and nothing changes, whichever bits of the number make it so. Where the guest count is none that there
   may be, 1 still comes before 2. */
#include <string.h>

#include "driver.h"
#include "expect.h"
#include "shown.h"

#define NUMBERS 256                        /* numbers that a guest may have */
#define BIT32(n) (((size_t)1 << 32) + (n)) /* a count whose low half is n */

static struct driver device;

static struct viommu_settings settings_of(size_t guests)
{
    struct viommu_settings s = {
        .guests = guests,
        .mask = 0x1000,
        .input = {.start = 0, .end = UINT64_MAX},
        .domains = {.start = 1, .end = 15},
    };
    for (size_t g = 0; g < guests; g++) {
        s.shares[g] = (uint32_t)(g + 2);
        s.firsts[g] = 0x80000000 + 0x10000000 * g;
        s.lasts[g] = 0x8fffffff + 0x10000000 * g;
    }
    return s;
}

/* Guest g has endpoint 8 + g in domain 1, g + 1 records, a full log and g + 1 lost faults. */
static void make(size_t guests)
{
    EXPECT(start(&device, settings_of(guests)) == VIOMMU_DONE);
    for (uint8_t g = 0; g < guests; g++) {
        uint64_t phys = device.state.settings.firsts[g];
        EXPECT(ask(&device, g, attach(1, 8u + g, 0)) == VIOMMU_STATUS_OK);
        for (uint64_t n = 0; n <= g; n++)
            EXPECT(ask(&device, g, map(1, 0x1000 * n, 0x1000 * n + 0xfff, phys, 3)) == VIOMMU_STATUS_OK);
        for (size_t n = 0; n < VIOMMU_FAULTS + g + 1u; n++)
            EXPECT(reach(&device, 8u + g, 0x100000, VIOMMU_READ).number == VIOMMU_UNMAPPED);
    }
}

/* State and table are as they were. */
static void check_left(const struct driver *lent, const struct viommu_state *given)
{
    EXPECT(same_state(given, &device.state));
    EXPECT(memcmp(lent->table, device.table, sizeof device.table) == 0);
}

/* A request under this number gets the wanted number, 1 or 2, and writes nothing. */
static void check_request(struct viommu_guest guest, struct readable r, uint8_t wanted)
{
    struct driver lent = device;
    uint8_t writable[VIOMMU_PROBE_BYTES], before[VIOMMU_PROBE_BYTES];
    size_t bytes = r.bytes[0] == VIOMMU_PROBE ? VIOMMU_PROBE_BYTES : VIOMMU_STATUS_BYTES;
    memset(writable, 0xa1, sizeof writable);
    memset(before, 0xa1, sizeof before);
    struct viommu_request_given given =
        viommu_request(lent.state, lent.table, VIOMMU_TABLE_WORDS, guest, r.bytes, r.count, writable, bytes);
    EXPECT(given.number == wanted && given.used == 0);
    EXPECT(memcmp(writable, before, sizeof before) == 0);
    check_left(&lent, &given.state);
}

static void check_reset(struct viommu_guest guest, uint8_t wanted)
{
    struct driver lent = device;
    struct viommu_reset_given given = viommu_reset(lent.state, lent.table, VIOMMU_TABLE_WORDS, guest);
    EXPECT(given.number == wanted);
    check_left(&lent, &given.state);
}

static void check_fetch(struct viommu_guest guest, uint8_t wanted)
{
    struct driver lent = device;
    uint8_t buffer[VIOMMU_FAULT_BYTES], before[VIOMMU_FAULT_BYTES];
    memset(buffer, 0xee, sizeof buffer);
    memset(before, 0xee, sizeof before);
    struct viommu_fetch_given given =
        viommu_fetch(lent.state, lent.table, VIOMMU_TABLE_WORDS, guest, buffer, sizeof buffer);
    EXPECT(given.number == wanted && given.count == 0);
    EXPECT(memcmp(buffer, before, sizeof before) == 0);
    check_left(&lent, &given.state);
}

/* Each call under this number is refused with the wanted number, the requests such as guest g would be served. */
static void check_refused(struct viommu_guest guest, uint8_t g, uint8_t wanted)
{
    struct readable unknown = attach(1, 8u + g, 0), cut = attach(1, 8u + g, 0);
    unknown.bytes[0] = 6;
    cut.count = 3;
    check_request(guest, attach(2, 8u + g, 0), wanted);
    check_request(guest, detach(1, 8u + g, 0), wanted);
    check_request(guest, map(1, 0x8000, 0x8fff, device.state.settings.firsts[g], 3), wanted);
    check_request(guest, unmap(1, 0, UINT64_MAX, 0), wanted);
    check_request(guest, probe(8u + g), wanted);
    check_request(guest, unknown, wanted);
    check_request(guest, cut, wanted);
    check_reset(guest, wanted);
    check_fetch(guest, wanted);
}

/* What the queries say of this number: guest g's records and lost faults, or none. */
static void check_queries(struct viommu_guest guest, size_t guests)
{
    size_t wanted = guest.number < guests ? guest.number + 1u : 0;
    EXPECT(viommu_held(device.state, device.table, VIOMMU_TABLE_WORDS, guest) == wanted);
    EXPECT(viommu_lost(device.state, guest) == wanted);
}

/* Every number from the guest count on, taken for no guest, whichever guest its low bits name. */
static void check_unknown(size_t guests)
{
    make(guests);
    for (unsigned n = 0; n < NUMBERS; n++) {
        struct viommu_guest guest = {(uint8_t)n};
        check_queries(guest, guests);
        if (n >= guests)
            check_refused(guest, n % VIOMMU_GUESTS < guests ? n % VIOMMU_GUESTS : 0, VIOMMU_NO_SUCH_GUEST);
    }
}

/* A state with this guest count, which is not good: 1 for a number that is not below it, 2 for any other. */
static void check_count(size_t count)
{
    make(VIOMMU_GUESTS);
    device.state.settings.guests = count;
    for (unsigned n = 0; n < NUMBERS; n++) {
        struct viommu_guest guest = {(uint8_t)n};
        check_refused(guest, n % VIOMMU_GUESTS, n < count ? VIOMMU_UNSOUND : VIOMMU_NO_SUCH_GUEST);
    }
}

/* Records of guest parts that are no guest's number, or no number of eight bits: each counts for its own number alone. */
static void check_held(void)
{
    static const uint64_t parts[] = {0, 16, 64, 128, 128, 255, 256, 257, 384, 512, 65536, 0x80000000, 0x80000001, UINT32_MAX};
    const size_t count = sizeof parts / sizeof *parts;
    make(1);
    device.state.live = count;
    for (size_t i = 0; i < count; i++)
        device.table[VIOMMU_RECORD_WORDS * i] = (parts[i] << 32) + 1;
    for (unsigned n = 0; n < NUMBERS; n++) {
        struct viommu_guest guest = {(uint8_t)n};
        size_t wanted = n == 128 ? 2 : n == 0 || n == 16 || n == 64 || n == 255;
        EXPECT(viommu_held(device.state, device.table, VIOMMU_TABLE_WORDS, guest) == wanted);
    }
}

int main(void)
{
    static const size_t counts[] = {0,   5,   6,     8,     16,    17,       32,       64,       128,       255,     256,
                                    257, 260, 65536, 65537, 65540, BIT32(0), BIT32(1), BIT32(4), BIT32(255), SIZE_MAX};
    for (size_t guests = 1; guests <= VIOMMU_GUESTS; guests++)
        check_unknown(guests);
    for (size_t i = 0; i < sizeof counts / sizeof *counts; i++)
        check_count(counts[i]);
    check_held();
    puts("guest numbers: all 256, with one to four guests and with counts that are not good, by every call and query");
    return 0;
}
