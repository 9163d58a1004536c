/* The calls whose stack is measured: every function of the header, every type of request, with every kind of answer, on
   full and on empty tables and logs. */
#include "expect.h"
#include "stack.h"

#define NONE 255 /* stands for the status of a request that is not worked */

static const struct stack_devices *on;
static void (*measure)(const char *name, void (*call)(void));

/* The call that is made next: the device, which it may change, what it is handed besides, and what it is answered. */
static struct driver device;
static size_t words = VIOMMU_TABLE_WORDS;
static struct viommu_guest guest;
static struct viommu_endpoint endpoint;
static struct readable asked;
static uint64_t address;
static uint8_t kind;
static size_t bytes, owners, region_words;
static uint8_t wanted_number, wanted_status;
static size_t wanted_count;

static void request(void)
{
    static uint8_t writable[VIOMMU_PROBE_BYTES];
    size_t status = bytes == VIOMMU_PROBE_BYTES ? VIOMMU_PROPERTIES_BYTES : 0;
    writable[status] = NONE;
    struct viommu_request_given given =
        viommu_request(device.state, device.table, words, guest, asked.bytes, asked.count, writable, bytes);
    EXPECT(given.number == wanted_number && writable[status] == wanted_status);
}

static void access(void)
{
    struct viommu_access_given given = viommu_access(device.state, device.table, words, endpoint, address, kind);
    EXPECT(given.number == wanted_number);
}

static void reset(void)
{
    EXPECT(viommu_reset(device.state, device.table, words, guest).number == wanted_number);
}

static void fetch(void)
{
    static uint8_t buffer[VIOMMU_FAULTS * VIOMMU_FAULT_BYTES + 1];
    struct viommu_fetch_given given = viommu_fetch(device.state, device.table, words, guest, buffer, bytes);
    EXPECT(given.number == wanted_number && given.count == wanted_count);
}

/* Sets up again, with the settings, the endpoints and the regions that the device's state has. */
static void set_up(void)
{
    struct viommu_set_up_given given =
        viommu_set_up(device.state.settings, device.state.endpoints, device.state.listed, device.state.owners, owners,
                      device.state.regions, region_words, device.table, words);
    EXPECT(given.number == wanted_number);
}

static void held(void)
{
    EXPECT(viommu_held(device.state, device.table, words, guest) == wanted_count);
}

static void lost(void)
{
    EXPECT(viommu_lost(device.state, guest) == wanted_count);
}

static void readable_length(void)
{
    EXPECT(viommu_readable_length(kind) == wanted_count);
}

static void writable_length(void)
{
    EXPECT(viommu_writable_length(kind) == wanted_count);
}

/* A request of guest g's that is worked, and its status. */
static void worked(const char *name, const struct driver *d, uint8_t g, struct readable r, uint8_t status)
{
    device = *d, guest.number = g, asked = r, wanted_number = VIOMMU_DONE, wanted_status = status;
    bytes = r.bytes[0] == VIOMMU_PROBE ? VIOMMU_PROBE_BYTES : VIOMMU_STATUS_BYTES;
    measure(name, request);
}

/* A request of guest g's that is not worked, with so many bytes of room for its status. */
static void refused(const char *name, const struct driver *d, uint8_t g, struct readable r, size_t room, uint8_t number)
{
    device = *d, guest.number = g, asked = r, bytes = room, wanted_number = number, wanted_status = NONE;
    measure(name, request);
}

static void reached(const char *name, const struct driver *d, uint32_t e, uint64_t a, uint8_t k, uint8_t number)
{
    device = *d, endpoint.number = e, address = a, kind = k, wanted_number = number;
    measure(name, access);
}

static void was_reset(const char *name, const struct driver *d, uint8_t g, uint8_t number)
{
    device = *d, guest.number = g, wanted_number = number;
    measure(name, reset);
}

static void fetched(const char *name, const struct driver *d, uint8_t g, size_t room, uint8_t number, size_t count)
{
    device = *d, guest.number = g, bytes = room, wanted_number = number, wanted_count = count;
    measure(name, fetch);
}

/* A query by a guest's number or a request's type. */
static void asked_for(const char *name, void (*query)(void), uint8_t number, size_t count)
{
    device = on->full, guest.number = number, kind = number, wanted_count = count;
    measure(name, query);
}

/* ATTACH and DETACH: with nothing to do, with the records of a domain to take away, and refused at each step. */
static void attachments(void)
{
    worked("ATTACH", &on->fresh, 0, attach(1, 100, 0), VIOMMU_STATUS_OK);
    worked("ATTACH, table and logs full", &on->full, 3, attach(1, 131, 0), VIOMMU_STATUS_OK);
    worked("ATTACH again", &on->full, 0, attach(1, 100, 0), VIOMMU_STATUS_OK);
    worked("ATTACH that moves the last", &on->full, 0, attach(2, 100, 0), VIOMMU_STATUS_OK);
    worked("ATTACH that moves one of seven", &on->full, 0, attach(1, 104, 0), VIOMMU_STATUS_OK);
    worked("ATTACH with reserved bits", &on->full, 0, attach(1, 100, 1), VIOMMU_STATUS_INVAL);
    worked("ATTACH of no endpoint", &on->full, 0, attach(1, 99, 0), VIOMMU_STATUS_NOENT);
    worked("ATTACH of another's", &on->full, 0, attach(1, 101, 0), VIOMMU_STATUS_NOENT);
    worked("ATTACH out of range", &on->full, 0, attach(16, 100, 0), VIOMMU_STATUS_RANGE);
    worked("ATTACH to records on a region", &on->full, 3, attach(2, 131, 0), VIOMMU_STATUS_UNSUPP);
    worked("DETACH of the last", &on->full, 0, detach(1, 100, 0), VIOMMU_STATUS_OK);
    worked("DETACH of the last, last guest", &on->full, 3, detach(1, 103, 0), VIOMMU_STATUS_OK);
    worked("DETACH of one of seven", &on->full, 0, detach(2, 104, 0), VIOMMU_STATUS_OK);
    worked("DETACH with reserved bits", &on->full, 0, detach(1, 100, 1), VIOMMU_STATUS_INVAL);
    worked("DETACH of no endpoint", &on->full, 0, detach(1, 99, 0), VIOMMU_STATUS_NOENT);
    worked("DETACH from elsewhere", &on->full, 0, detach(2, 100, 0), VIOMMU_STATUS_INVAL);
    worked("DETACH, just set up", &on->fresh, 0, detach(1, 100, 0), VIOMMU_STATUS_INVAL);
}

/* Guest 0's MAP of pages in domain 1; the record of page 1 would stand before all others. */
static struct readable map_of(uint64_t first, uint64_t last, uint64_t phys, uint32_t flags)
{
    return map(1, PAGE * first, PAGE * last + PAGE - 1, phys, flags);
}

/* MAP and UNMAP, refused at each step. Guest 0's page 2 was mapped in domain 2, page 4 is in domain 1. */
static void mappings(void)
{
    uint64_t start = on->full.state.settings.firsts[0];
    worked("MAP before all others", &on->room, 0, map_of(1, 1, start, 3), VIOMMU_STATUS_OK);
    worked("MAP of no domain", &on->fresh, 0, map_of(1, 1, start, 3), VIOMMU_STATUS_NOENT);
    worked("MAP with other flags", &on->room, 0, map_of(1, 1, start, 4), VIOMMU_STATUS_INVAL);
    worked("MAP of less than nothing", &on->room, 0, map_of(2, 0, start, 3), VIOMMU_STATUS_RANGE);
    worked("MAP of parts of pages", &on->room, 0, map(1, PAGE, PAGE + 1, start, 3), VIOMMU_STATUS_RANGE);
    worked("MAP past the input range", &on->room, 0, map_of(1, 1 << 20, start, 3), VIOMMU_STATUS_RANGE);
    worked("MAP out of the window", &on->room, 0, map_of(1, 1, start - PAGE, 3), VIOMMU_STATUS_FAULT);
    worked("MAP that overlaps", &on->room, 0, map_of(1, 100, start, 3), VIOMMU_STATUS_INVAL);
    worked("MAP on a region", &on->room, 0, map_of(RESERVED_PAGE, RESERVED_PAGE, start, 3), VIOMMU_STATUS_INVAL);
    worked("MAP on the last region", &on->room, 0, map_of(RESERVED_PAGE + 6, RESERVED_PAGE + 6, start, 3), VIOMMU_STATUS_INVAL);
    worked("MAP past the share", &on->full, 0, map_of(1, 1, start, 3), VIOMMU_STATUS_NOMEM);
    worked("UNMAP of all", &on->full, 0, unmap(1, 0, UINT64_MAX, 0), VIOMMU_STATUS_OK);
    worked("UNMAP of one", &on->full, 0, unmap(1, 4 * PAGE, 5 * PAGE - 1, 0), VIOMMU_STATUS_OK);
    worked("UNMAP of none", &on->full, 0, unmap(1, 0, 1, 0), VIOMMU_STATUS_OK);
    worked("UNMAP of no domain", &on->fresh, 0, unmap(1, 0, 1, 0), VIOMMU_STATUS_NOENT);
    worked("UNMAP with reserved bits", &on->full, 0, unmap(1, 0, 1, 1), VIOMMU_STATUS_INVAL);
    worked("UNMAP of less than nothing", &on->full, 0, unmap(1, 1, 0, 0), VIOMMU_STATUS_RANGE);
    worked("UNMAP that cuts", &on->full, 0, unmap(1, 0, 4 * PAGE, 0), VIOMMU_STATUS_RANGE);
}

static void probes(void)
{
    worked("PROBE", &on->full, 0, probe(100), VIOMMU_STATUS_OK);
    worked("PROBE of the last endpoint", &on->full, 3, probe(131), VIOMMU_STATUS_OK);
    worked("PROBE, just set up", &on->fresh, 0, probe(100), VIOMMU_STATUS_OK);
    worked("PROBE of no endpoint", &on->full, 0, probe(99), VIOMMU_STATUS_NOENT);
    worked("PROBE of another's", &on->full, 0, probe(101), VIOMMU_STATUS_NOENT);
}

/* Accesses: page 2 is mapped in domain 2 alone, page 4 in domain 1 alone, and both for reads. */
static void accesses(void)
{
    reached("an access through", &on->full, 104, 2 * PAGE, VIOMMU_READ, VIOMMU_DONE);
    reached("an access through, last record", &on->full, 127, 2 * PAGE * (OWN - 1), VIOMMU_READ, VIOMMU_DONE);
    reached("an access blocked, logged", &on->quiet, 104, 4 * PAGE, VIOMMU_READ, VIOMMU_UNMAPPED);
    reached("an access blocked, lost", &on->full, 104, 4 * PAGE, VIOMMU_READ, VIOMMU_UNMAPPED);
    reached("an access blocked, lost at most", &on->at_most, 104, 4 * PAGE, VIOMMU_READ, VIOMMU_UNMAPPED);
    reached("a write blocked, logged", &on->one, 104, 2 * PAGE, VIOMMU_WRITE, VIOMMU_UNMAPPED);
    reached("an access unattached, logged", &on->fresh, 100, 2 * PAGE, VIOMMU_READ, VIOMMU_UNATTACHED);
    reached("an access unattached, table full", &on->quiet, 131, 2 * PAGE, VIOMMU_READ, VIOMMU_UNATTACHED);
    reached("an access unattached, lost", &on->full, 131, 2 * PAGE, VIOMMU_READ, VIOMMU_UNATTACHED);
    reached("an access of nobody's", &on->full, 99, 2 * PAGE, VIOMMU_READ, VIOMMU_UNKNOWN_ENDPOINT);
}

static void resets(void)
{
    was_reset("a reset, first guest", &on->full, 0, VIOMMU_DONE);
    was_reset("a reset, last guest", &on->full, 3, VIOMMU_DONE);
    was_reset("a reset, logs empty", &on->quiet, 0, VIOMMU_DONE);
    was_reset("a reset, just set up", &on->fresh, 0, VIOMMU_DONE);
}

static void fetches(void)
{
    fetched("a fetch of 16", &on->full, 0, VIOMMU_FAULTS * VIOMMU_FAULT_BYTES + 1, VIOMMU_DONE, VIOMMU_FAULTS);
    fetched("a fetch of 16, last guest", &on->full, 3, VIOMMU_FAULTS * VIOMMU_FAULT_BYTES, VIOMMU_DONE, VIOMMU_FAULTS);
    fetched("a fetch of 1 of 16", &on->full, 0, VIOMMU_FAULT_BYTES, VIOMMU_DONE, 1);
    fetched("a fetch of 0 of 16", &on->full, 0, VIOMMU_FAULT_BYTES - 1, VIOMMU_DONE, 0);
    fetched("a fetch into nothing", &on->full, 0, 0, VIOMMU_DONE, 0);
    fetched("a fetch of 1", &on->one, 0, VIOMMU_FAULTS * VIOMMU_FAULT_BYTES, VIOMMU_DONE, 1);
    fetched("a fetch of 0", &on->quiet, 0, VIOMMU_FAULTS * VIOMMU_FAULT_BYTES, VIOMMU_DONE, 0);
    fetched("a fetch, just set up", &on->fresh, 0, VIOMMU_FAULTS * VIOMMU_FAULT_BYTES, VIOMMU_DONE, 0);
}

/* Calls that are not worked because of the guest's number, the state or the table. */
static void refusals(void)
{
    struct readable r = attach(2, 100, 0);
    refused("a request of no guest", &on->full, VIOMMU_GUESTS, r, 4, VIOMMU_NO_SUCH_GUEST);
    was_reset("a reset of no guest", &on->full, VIOMMU_GUESTS, VIOMMU_NO_SUCH_GUEST);
    fetched("a fetch of no guest", &on->full, VIOMMU_GUESTS, VIOMMU_FAULT_BYTES, VIOMMU_NO_SUCH_GUEST, 0);
    refused("a request, unsound", &on->unsound, 0, r, 4, VIOMMU_UNSOUND);
    reached("an access, unsound", &on->unsound, 100, 0, VIOMMU_READ, VIOMMU_UNSOUND);
    was_reset("a reset, unsound", &on->unsound, 0, VIOMMU_UNSOUND);
    fetched("a fetch, unsound", &on->unsound, 0, VIOMMU_FAULT_BYTES, VIOMMU_UNSOUND, 0);
    words = VIOMMU_TABLE_WORDS - 1;
    refused("a request, table cut", &on->full, 0, r, 4, VIOMMU_UNSOUND);
    reached("an access, table cut", &on->full, 100, 0, VIOMMU_READ, VIOMMU_UNSOUND);
    was_reset("a reset, table cut", &on->full, 0, VIOMMU_UNSOUND);
    fetched("a fetch, table cut", &on->full, 0, VIOMMU_FAULT_BYTES, VIOMMU_UNSOUND, 0);
    words = VIOMMU_TABLE_WORDS;
}

/* Requests that are not worked because of their bytes. */
static void refused_requests(void)
{
    struct readable r = attach(2, 100, 0), tiny = r, cut = r, unknown = r;
    tiny.count = 3, cut.count = 19, unknown.bytes[0] = 6;
    refused("a request below 4 bytes", &on->full, 0, tiny, 4, VIOMMU_WRONG_LENGTH);
    refused("a request of type 6", &on->full, 0, unknown, 4, VIOMMU_UNKNOWN_TYPE);
    refused("a request cut short", &on->full, 0, cut, 4, VIOMMU_WRONG_LENGTH);
    refused("a request without room for its status", &on->full, 0, r, 0, VIOMMU_WRONG_LENGTH);
    refused("a PROBE without room for properties", &on->full, 0, probe(100), 4, VIOMMU_WRONG_LENGTH);
    refused("a PROBE, unsound", &on->unsound, 0, probe(100), VIOMMU_PROBE_BYTES, VIOMMU_UNSOUND);
}

/* Set-up on a full table, with settings and lists as the device has them but for one thing. */
static void set_up_again(const char *name, size_t count, uint8_t number)
{
    owners = count, region_words = VIOMMU_ENDPOINT_REGION_WORDS * device.state.listed, wanted_number = number;
    measure(name, set_up);
}

static void set_ups(void)
{
    device = on->full;
    set_up_again("a set-up", VIOMMU_ENDPOINTS, VIOMMU_DONE);
    device = on->full, device.state.listed = 0;
    set_up_again("a set-up without endpoints", 0, VIOMMU_DONE);
    device = on->full, device.state.settings.guests = VIOMMU_GUESTS + 1;
    set_up_again("a set-up of five guests", VIOMMU_ENDPOINTS, VIOMMU_BAD_CONFIGURATION);
    device = on->full, device.state.endpoints[VIOMMU_ENDPOINTS - 1] = 100;
    set_up_again("a set-up with an endpoint twice", VIOMMU_ENDPOINTS, VIOMMU_BAD_CONFIGURATION);
    device = on->full;
    set_up_again("a set-up with unequal lists", VIOMMU_ENDPOINTS - 1, VIOMMU_BAD_CONFIGURATION);
    words = VIOMMU_TABLE_WORDS - 1;
    set_up_again("a set-up, table cut", VIOMMU_ENDPOINTS, VIOMMU_UNSOUND);
    words = VIOMMU_TABLE_WORDS;
    device = on->full, device.state.regions[VIOMMU_REGION_PLACES - 1] = 0;
    set_up_again("a set-up with a region upside down", VIOMMU_ENDPOINTS, VIOMMU_BAD_CONFIGURATION);
    device = on->full, device.state.regions[0] = VIOMMU_REGIONS + 1;
    set_up_again("a set-up with five regions", VIOMMU_ENDPOINTS, VIOMMU_BAD_CONFIGURATION);
    for (size_t i = 0; i < VIOMMU_REGION_PLACES; i++)
        device.state.regions[i] = 0;
    set_up_again("a set-up without regions", VIOMMU_ENDPOINTS, VIOMMU_DONE);
}

static void queries(void)
{
    asked_for("records held, last guest", held, 3, OWN);
    asked_for("records held, no guest", held, VIOMMU_GUESTS, 0);
    asked_for("faults lost, last guest", lost, 3, 1);
    asked_for("faults lost, no guest", lost, VIOMMU_GUESTS, 0);
    asked_for("the length of MAP's readable part", readable_length, VIOMMU_MAP, 36);
    asked_for("the length of PROBE's readable part", readable_length, VIOMMU_PROBE, 72);
    asked_for("the length of type 6's readable part", readable_length, 6, 0);
    asked_for("the length of MAP's writable part", writable_length, VIOMMU_MAP, 4);
    asked_for("the length of PROBE's writable part", writable_length, VIOMMU_PROBE, 132);
    asked_for("the length of type 6's writable part", writable_length, 6, 0);
}

void every_call(const struct stack_devices *devices, void (*measured)(const char *name, void (*call)(void)))
{
    on = devices;
    measure = measured;
    attachments();
    mappings();
    probes();
    accesses();
    resets();
    fetches();
    refusals();
    refused_requests();
    set_ups();
    queries();
}
