/* The header's structs against the archive's side: every field of the state, filled by calls, stands where the header
   says, and a state that is handed in comes back. */
#include <string.h>

#include "distinct.h"
#include "driver.h"
#include "expect.h"
#include "layout.h"

static struct driver device;

/* The regions of all endpoints as they are lent; and those in use, with zeros after them, as they are to stand in the state. */
static struct viommu_regions regions[VIOMMU_ENDPOINTS];

static void fill_regions(uint64_t *wanted)
{
    for (size_t i = 0; i < VIOMMU_ENDPOINTS; i++) {
        size_t used = 1 + VIOMMU_REGION_WORDS * distinct_regions(i).count;
        regions[i] = distinct_regions(i);
        memcpy(wanted + VIOMMU_ENDPOINT_REGION_WORDS * i, &regions[i], used * sizeof *wanted);
    }
}

/* Set-up has given back each setting, each endpoint, each owner and each region at its place, and zero at all others. */
static void set_up(void)
{
    struct viommu_state wanted;
    memset(&wanted, 0, sizeof wanted);
    fill_regions(wanted.regions);
    wanted.settings = distinct_settings();
    wanted.listed = VIOMMU_ENDPOINTS;
    for (size_t i = 0; i < VIOMMU_ENDPOINTS; i++) {
        wanted.endpoints[i] = distinct_endpoint(i);
        wanted.owners[i] = distinct_owner(i);
    }
    memset(device.table, 0xa5, sizeof device.table);
    struct viommu_set_up_given given =
        viommu_set_up(wanted.settings, wanted.endpoints, VIOMMU_ENDPOINTS, wanted.owners, VIOMMU_ENDPOINTS,
                      &regions[0].count, VIOMMU_REGION_PLACES, device.table, VIOMMU_TABLE_WORDS);
    EXPECT(given.number == VIOMMU_DONE);
    EXPECT(memcmp(&given.state, &wanted, sizeof wanted) == 0);
    for (size_t i = 0; i < VIOMMU_TABLE_WORDS; i++)
        EXPECT(device.table[i] == 0);
    device.state = given.state;
}

/* The access that the fault tells of, which is blocked for the fault's reason. */
static void blocked(struct fault f)
{
    struct viommu_access_given given = reach(&device, f.source, f.address, f.kind);
    EXPECT(given.number == (f.reason == VIOMMU_REASON_DOMAIN ? VIOMMU_UNATTACHED : VIOMMU_UNMAPPED));
    EXPECT(given.address == 0);
}

static void ask_ok(uint8_t guest, struct readable r)
{
    EXPECT(ask(&device, guest, r) == VIOMMU_STATUS_OK);
}

/* Eight faults for each guest while all are unattached, then every endpoint attached, then the other eight; then so many
   more as the guest is to lose, 3, 6, 9 and 12. */
static void fill(void)
{
    for (size_t place = 0; place < VIOMMU_FAULT_PLACES; place++)
        if (place % VIOMMU_FAULTS < 8)
            blocked(distinct_fault(place));
    for (size_t i = 0; i < VIOMMU_ENDPOINTS; i++)
        ask_ok(distinct_owner(i), attach(distinct_domain(i), distinct_endpoint(i), 0));
    for (size_t place = 0; place < VIOMMU_FAULT_PLACES; place++)
        if (place % VIOMMU_FAULTS >= 8)
            blocked(distinct_fault(place));
    for (size_t guest = 0; guest < VIOMMU_GUESTS; guest++)
        for (size_t i = 0; i < 3 * (guest + 1); i++)
            blocked(distinct_fault(guest * VIOMMU_FAULTS + 8));
    for (uint8_t guest = 0; guest < VIOMMU_GUESTS; guest++) {
        const struct record r = distinct_record(guest);
        ask_ok(guest, map(distinct_domain(guest), r.words[1], r.words[2], r.words[3], (uint32_t)r.words[4]));
    }
}

static void check_filled(void)
{
    EXPECT(device.state.live == 4);
    for (size_t i = 0; i < VIOMMU_ENDPOINTS; i++)
        EXPECT(device.state.attached[i] == 1 && device.state.domains[i] == distinct_domain(i));
    for (uint8_t g = 0; g < VIOMMU_GUESTS; g++) {
        struct viommu_guest guest = {g};
        const struct record r = distinct_record(g);
        EXPECT(device.state.logged[g] == VIOMMU_FAULTS && device.state.lost[g] == 3u * (g + 1u));
        EXPECT(viommu_lost(device.state, guest) == 3u * (g + 1u));
        EXPECT(viommu_held(device.state, device.table, VIOMMU_TABLE_WORDS, guest) == 1);
        EXPECT(memcmp(device.table + VIOMMU_RECORD_WORDS * g, r.words, sizeof r.words) == 0);
    }
    for (size_t place = 0; place < VIOMMU_FAULT_PLACES; place++) {
        const struct fault f = distinct_fault(place);
        EXPECT(device.state.reasons[place] == f.reason);
        EXPECT(device.state.flags[place] == f.flags);
        EXPECT(device.state.sources[place] == f.source);
        EXPECT(device.state.addresses[place] == f.address);
    }
}

/* Guest 3's mapping permits reads and writes: the byte 7 above its start lands 7 above its phys_start. */
static void check_through(void)
{
    const struct record r = distinct_record(3);
    const struct viommu_state before = device.state;
    struct viommu_access_given given = reach(&device, distinct_endpoint(3), r.words[1] + 7, VIOMMU_WRITE);
    EXPECT(given.number == VIOMMU_DONE && given.address == r.words[3] + 7);
    EXPECT(memcmp(&given.state, &before, sizeof before) == 0);
}

/* The number in the bytes from a place on, lowest first. */
static uint64_t number_at(const uint8_t *bytes, size_t count)
{
    uint64_t n = 0;
    while (count > 0)
        n = n * 256 + bytes[--count];
    return n;
}

/* The regions of the endpoint at this place leave by PROBE in 24 bytes each, with zeros after them and then the status. */
static void check_probed(size_t place)
{
    struct viommu_guest guest = {distinct_owner(place)};
    struct viommu_regions q = distinct_regions(place);
    struct readable r = probe(distinct_endpoint(place));
    uint8_t writable[VIOMMU_PROBE_BYTES];
    memset(writable, 0xee, sizeof writable);
    struct viommu_request_given given = viommu_request(device.state, device.table, VIOMMU_TABLE_WORDS, guest, r.bytes,
                                                       r.count, writable, sizeof writable);
    EXPECT(given.number == VIOMMU_DONE && given.used == VIOMMU_PROBE_BYTES);
    EXPECT(memcmp(&given.state, &device.state, sizeof device.state) == 0);
    for (size_t j = 0; j < q.count; j++) {
        const uint8_t *bytes = writable + j * VIOMMU_PROPERTY_BYTES;
        EXPECT(number_at(bytes, 2) == 1 && number_at(bytes + 2, 2) == 20);
        EXPECT(number_at(bytes + 4, 4) == q.region[j].subtype);
        EXPECT(number_at(bytes + 8, 8) == q.region[j].start);
        EXPECT(number_at(bytes + 16, 8) == q.region[j].end);
    }
    for (size_t i = q.count * VIOMMU_PROPERTY_BYTES; i < sizeof writable; i++)
        EXPECT(writable[i] == 0);
}

/* A guest's faults leave in 24 bytes each, and the bytes after them stay. */
static void check_fetched(uint8_t number)
{
    struct viommu_guest guest = {number};
    uint8_t buffer[VIOMMU_FAULTS * VIOMMU_FAULT_BYTES + 5];
    memset(buffer, 0xee, sizeof buffer);
    struct viommu_fetch_given given =
        viommu_fetch(device.state, device.table, VIOMMU_TABLE_WORDS, guest, buffer, sizeof buffer);
    EXPECT(given.number == VIOMMU_DONE && given.count == VIOMMU_FAULTS);
    EXPECT(given.state.logged[number] == 0 && given.state.lost[number] == 3u * (number + 1u));
    for (size_t i = 0; i < VIOMMU_FAULTS; i++) {
        const struct fault f = distinct_fault((size_t)number * VIOMMU_FAULTS + i);
        const uint8_t *bytes = buffer + i * VIOMMU_FAULT_BYTES;
        EXPECT(number_at(bytes, 4) == f.reason);
        EXPECT(number_at(bytes + 4, 4) == f.flags);
        EXPECT(number_at(bytes + 8, 4) == f.source);
        EXPECT(number_at(bytes + 12, 4) == 0);
        EXPECT(number_at(bytes + 16, 8) == f.address);
    }
    EXPECT(number_at(buffer + sizeof buffer - 5, 5) == 0xeeeeeeeeee);
    device.state = given.state;
}

/* Each guest's reset clears its places and leaves the other guests' as they were. */
static void check_reset(uint8_t number)
{
    struct viommu_guest guest = {number};
    struct viommu_state wanted = device.state;
    wanted.live--;
    wanted.lost[number] = 0;
    for (size_t i = number; i < VIOMMU_ENDPOINTS; i += VIOMMU_GUESTS) {
        wanted.attached[i] = 0;
        wanted.domains[i] = 0;
    }
    struct viommu_reset_given given = viommu_reset(device.state, device.table, VIOMMU_TABLE_WORDS, guest);
    EXPECT(given.number == VIOMMU_DONE);
    EXPECT(memcmp(&given.state, &wanted, sizeof wanted) == 0);
    EXPECT(viommu_held(given.state, device.table, VIOMMU_TABLE_WORDS, guest) == 0);
    device.state = given.state;
}

int main(void)
{
    set_up();
    fill();
    check_filled();
    check_through();
    for (size_t place = 0; place < VIOMMU_ENDPOINTS; place++)
        check_probed(place);
    for (uint8_t guest = 0; guest < VIOMMU_GUESTS; guest++) {
        check_fetched(guest);
        check_reset(guest);
    }
    puts("layout: sizes and offsets, and every field of a state that calls have filled");
    return 0;
}
