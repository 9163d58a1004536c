/* Document 01's "One whole run", by the library's calls, printed in the journal's lines. */
#include <inttypes.h>

#include "expect.h"
#include "requests.h"
#include "viommu.h"

static struct viommu_state state;
static uint64_t table[VIOMMU_TABLE_WORDS];

static void start(void)
{
    struct viommu_settings settings = {
        .guests = 2,
        .shares = {2, 2},
        .firsts = {0x80000000, 0x90000000},
        .lasts = {0x8fffffff, 0x9fffffff},
        .mask = 0x1000,
        .input = {.start = 0, .end = 0xffffffff},
        .domains = {.start = 1, .end = 15},
    };
    static const uint32_t endpoints[] = {8, 9};
    static const uint8_t owners[] = {0, 1};
    static const struct viommu_regions none[2]; /* neither endpoint has a reserved region */
    struct viommu_set_up_given given =
        viommu_set_up(settings, endpoints, 2, owners, 2, &none[0].count, 2 * VIOMMU_ENDPOINT_REGION_WORDS,
                      table, VIOMMU_TABLE_WORDS);
    state = given.state;
    printf("S %u\n", given.number);
}

/* A request of guest 0, in a buffer whose length the library is asked for. */
static void request(struct readable r)
{
    uint8_t writable[4] = {0xff, 0xff, 0xff, 0xff};
    struct viommu_guest guest = {0};
    EXPECT(viommu_readable_length(r.bytes[0]) == r.count);
    EXPECT(viommu_writable_length(r.bytes[0]) == sizeof writable);
    struct viommu_request_given given =
        viommu_request(state, table, VIOMMU_TABLE_WORDS, guest, r.bytes, r.count, writable, sizeof writable);
    state = given.state;
    if (given.number != VIOMMU_DONE) {
        printf("R %u %zu -\n", given.number, given.used);
        return;
    }
    EXPECT(writable[1] == 0 && writable[2] == 0 && writable[3] == 0);
    printf("R %u %zu %u\n", given.number, given.used, writable[0]);
}

static void access_by(uint32_t endpoint, uint64_t address, uint8_t kind)
{
    struct viommu_endpoint e = {endpoint};
    struct viommu_access_given given = viommu_access(state, table, VIOMMU_TABLE_WORDS, e, address, kind);
    state = given.state;
    if (given.number == VIOMMU_DONE)
        printf("A %u %016" PRIx64 "\n", given.number, given.address);
    else
        printf("A %u\n", given.number);
}

/* A fetch for guest 0, with room for 4 faults. */
static void fetch(void)
{
    uint8_t buffer[4 * VIOMMU_FAULT_BYTES];
    struct viommu_guest guest = {0};
    struct viommu_fetch_given given = viommu_fetch(state, table, VIOMMU_TABLE_WORDS, guest, buffer, sizeof buffer);
    state = given.state;
    if (given.number != VIOMMU_DONE) {
        printf("F %u\n", given.number);
        return;
    }
    printf("F %u %zu\n", given.number, given.count);
    for (size_t i = 0; i < given.count; i++) {
        for (size_t j = 0; j < VIOMMU_FAULT_BYTES; j++)
            printf("%02x", buffer[i * VIOMMU_FAULT_BYTES + j]);
        printf("\n");
    }
}

int main(void)
{
    start();
    request(attach(1, 8, 0));
    request(map(1, 0x1000, 0x1fff, 0x8000a000, VIOMMU_FLAG_READ));
    access_by(8, 0x1234, VIOMMU_READ);
    access_by(8, 0x1234, VIOMMU_WRITE);
    access_by(9, 0x1234, VIOMMU_READ);
    fetch();
    request(detach(1, 8, 0));
    request(attach(1, 8, 0));
    access_by(8, 0x1234, VIOMMU_READ);
    puts("E");
    return 0;
}
