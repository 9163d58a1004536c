/* What a call does to the bytes that it is lent: a served request writes the status and three zeros over what stood
   there, a refused one writes nothing, and a fetch leaves every byte after the records that it writes. */
#include <string.h>

#include "expect.h"
#include "garbage.h"
#include "requests.h"
#include "shown.h"

#define BUFFER (2 * VIOMMU_FAULT_BYTES + 5) /* bytes of a fetch's buffer: two records and five bytes more */

static uint64_t table[VIOMMU_TABLE_WORDS];

/* The state that a call gave back is the wanted one, and the table holds no record, as from set-up on. */
static void check_left(const struct viommu_state *given, const struct viommu_state *wanted)
{
    EXPECT(same_state(given, wanted));
    for (size_t i = 0; i < VIOMMU_TABLE_WORDS; i++)
        EXPECT(table[i] == 0);
}

/* Prints what was done, the number given back, the value beside it, and the bytes of the lent buffer. */
static void print_answer(const char *what, uint8_t number, size_t value, const uint8_t *buffer, size_t bytes)
{
    printf("%s: %u %zu ", what, number, value);
    print_bytes(buffer, bytes);
    printf("\n");
}

/* A request with a writable part of four bytes that are 0xff before; it is to leave the wanted state. */
static void ask(const char *what, const struct viommu_state *s, uint8_t guest, struct readable r,
                const struct viommu_state *wanted)
{
    struct viommu_guest g = {guest};
    struct readable lent = r;
    uint8_t writable[4] = {0xff, 0xff, 0xff, 0xff};
    struct viommu_request_given given =
        viommu_request(*s, table, VIOMMU_TABLE_WORDS, g, lent.bytes, lent.count, writable, sizeof writable);
    print_answer(what, given.number, given.used, writable, sizeof writable);
    EXPECT(memcmp(lent.bytes, r.bytes, sizeof r.bytes) == 0);
    check_left(&given.state, wanted);
}

/* A fetch into so many first bytes of a buffer, all 0xee before. Gives the state without the faults that were fetched. */
static struct viommu_state fetch(const char *what, const struct viommu_state *s, uint8_t guest, size_t bytes)
{
    struct call c = {.entry = FETCH, .guest = {guest}, .writable_bytes = bytes};
    struct device wanted = {.state = *s};
    uint8_t buffer[BUFFER];
    memset(buffer, 0xee, sizeof buffer);
    struct viommu_fetch_given given = viommu_fetch(*s, table, VIOMMU_TABLE_WORDS, c.guest, buffer, bytes);
    print_answer(what, given.number, given.count, buffer, bytes);
    for (size_t i = bytes; i < sizeof buffer; i++)
        EXPECT(buffer[i] == 0xee);
    wanted_effect(&c, given.number, &wanted);
    check_left(&given.state, &wanted.state);
    return given.state;
}

/* An access that is blocked, whose number is printed. Gives the state with the fault that it leaves. */
static struct viommu_state access_by(const struct viommu_state *s, uint32_t endpoint, uint64_t address, uint8_t kind)
{
    struct call c = {.entry = ACCESS, .endpoint = {endpoint}, .address = address, .kind = kind};
    struct device wanted = {.state = *s};
    struct viommu_access_given given = viommu_access(*s, table, VIOMMU_TABLE_WORDS, c.endpoint, address, kind);
    printf("access: %u\n", given.number);
    EXPECT(given.address == 0);
    wanted_effect(&c, given.number, &wanted);
    check_left(&given.state, &wanted.state);
    return given.state;
}

/* ATTACH of endpoint 8 to domain 1, with this value in each of the three bytes of the head that are ignored. */
static struct readable attach_headed(uint8_t ignored, uint64_t reserved)
{
    struct readable r = attach(1, 8, reserved);
    memset(r.bytes + 1, ignored, 3);
    return r;
}

/* Served requests, the last with ignored bytes of the head that are not zero. Gives the state that the first leaves, in
   which the other two change nothing. */
static struct viommu_state served(const struct viommu_state *s)
{
    struct viommu_state attached = *s;
    attached.attached[0] = 1;
    attached.domains[0] = 1;
    ask("ATTACH", s, 0, attach_headed(0, 0), &attached);
    ask("ATTACH, reserved not 0", &attached, 0, attach_headed(0, 0x0100000000000000), &attached);
    ask("ATTACH, head's ignored bytes", &attached, 0, attach_headed(0xff, 0), &attached);
    return attached;
}

/* The state with a live count that no table has. */
static struct viommu_state unsound(const struct viommu_state *s)
{
    struct viommu_state broken = *s;
    broken.live = VIOMMU_RECORDS + 1;
    return broken;
}

/* Requests refused for their guest, type or length, or as the state is not sound: each gives back the state as it was. */
static void refused(const struct viommu_state *s)
{
    struct viommu_state broken = unsound(s);
    struct readable unknown = attach_headed(0, 0);
    struct readable cut = attach_headed(0, 0);
    unknown.bytes[0] = 6;
    cut.count = 19;
    ask("guest 2", s, 2, attach_headed(0, 0), s);
    ask("type 6", s, 0, unknown, s);
    ask("19 bytes", s, 0, cut, s);
    ask("unsound", &broken, 0, attach_headed(0, 0), &broken);
}

/* One fault is held, then none; a buffer that is one byte short of a record takes none. */
static struct viommu_state one_fault(const struct viommu_state *s)
{
    struct viommu_state one = access_by(s, 8, 0x5678, VIOMMU_READ);
    struct viommu_state kept = fetch("fetch into 23 bytes", &one, 0, VIOMMU_FAULT_BYTES - 1);
    struct viommu_state broken = unsound(&kept);
    fetch("fetch of guest 2", &kept, 2, BUFFER);
    fetch("fetch, unsound", &broken, 0, BUFFER);
    struct viommu_state none = fetch("fetch of one", &kept, 0, BUFFER);
    EXPECT(same_state(&kept, &one) && same_state(&none, s));
    return fetch("fetch of none", &none, 0, BUFFER);
}

/* Four faults, three of guest 0 and one of guest 1. */
static struct viommu_state four_faults(const struct viommu_state *s)
{
    struct viommu_state first = access_by(s, 8, 0x123456789abcdef0, VIOMMU_READ);
    struct viommu_state second = access_by(&first, 8, 0x9000, VIOMMU_WRITE);
    struct viommu_state third = access_by(&second, 9, UINT64_MAX, VIOMMU_WRITE);
    return access_by(&third, 8, 0, VIOMMU_READ);
}

/* The four fetched. */
static void fetch_four(const struct viommu_state *s)
{
    struct viommu_state left = fetch("fetch of three", s, 0, BUFFER);
    fetch("fetch of the third", &left, 0, BUFFER);
    fetch("fetch of guest 1", &left, 1, BUFFER);
}

int main(void)
{
    struct viommu_state start = shown_start(table);
    struct viommu_state attached = served(&start);
    refused(&attached);
    struct viommu_state empty = one_fault(&attached);
    struct viommu_state four = four_faults(&empty);
    fetch_four(&four);
    return 0;
}
