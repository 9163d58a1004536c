/* Tables of each length, with the words of a sound one as far as they go. */
#include <string.h>

#include "expect.h"
#include "regions.h"
#include "show_lengths.h"
#include "shown.h"

#define ROOM (VIOMMU_TABLE_WORDS + 1) /* words of the longest table */
#define NOT_LENT 0xeeeeeeeeeeeeeeee   /* stands in the words after the table */

/* A table of so many words, the first of the room. */
struct table {
    uint64_t words[ROOM];
    size_t count;
};

/* The mapped device's words as far as they go, then zeros. */
static struct table of_length(const struct driver *mapped, size_t count)
{
    struct table t = {.count = count};
    for (size_t i = 0; i < ROOM; i++) {
        uint64_t word = i < VIOMMU_TABLE_WORDS ? mapped->table[i] : 0;
        t.words[i] = i < count ? word : NOT_LENT;
    }
    return t;
}

/* The state given back and all words, lent or not, are as they were. */
static void check_unchanged(const struct driver *mapped, const struct viommu_state *given, const struct table *t)
{
    struct table before = of_length(mapped, t->count);
    EXPECT(same_state(given, &mapped->state));
    EXPECT(memcmp(t->words, before.words, sizeof before.words) == 0);
}

/* A request that changes nothing: endpoint 8 is in domain 1 already. */
static void show_request(const struct driver *mapped, struct table *t, uint8_t number)
{
    struct viommu_guest guest = {number};
    struct readable r = attach(1, 8, 0);
    uint8_t writable[4] = {0xff, 0xff, 0xff, 0xff};
    struct viommu_request_given given =
        viommu_request(mapped->state, t->words, t->count, guest, r.bytes, r.count, writable, sizeof writable);
    print_number("  request", given.number);
    print_value(given.used);
    print_lent(writable, sizeof writable);
    print_sums(&given.state, t->words, t->count);
    check_unchanged(mapped, &given.state, t);
}

/* A read that the mapping permits. */
static void show_access(const struct driver *mapped, struct table *t)
{
    struct viommu_endpoint endpoint = {8};
    struct viommu_access_given given =
        viommu_access(mapped->state, t->words, t->count, endpoint, 0x1234, VIOMMU_READ);
    print_number("  access", given.number);
    print_value(given.address);
    print_sums(&given.state, t->words, t->count);
    check_unchanged(mapped, &given.state, t);
}

/* A fetch of a log that is empty. */
static void show_fetch(const struct driver *mapped, struct table *t)
{
    struct viommu_guest guest = {0};
    uint8_t buffer[VIOMMU_FAULT_BYTES];
    memset(buffer, 0xee, sizeof buffer);
    struct viommu_fetch_given given =
        viommu_fetch(mapped->state, t->words, t->count, guest, buffer, sizeof buffer);
    print_number("  fetch", given.number);
    print_value(given.count);
    print_lent(buffer, sizeof buffer);
    print_sums(&given.state, t->words, t->count);
    check_unchanged(mapped, &given.state, t);
}

/* A reset of guest 1, which holds nothing. */
static void show_reset(const struct driver *mapped, struct table *t)
{
    struct viommu_guest guest = {1};
    struct viommu_reset_given given = viommu_reset(mapped->state, t->words, t->count, guest);
    print_number("  reset", given.number);
    print_sums(&given.state, t->words, t->count);
    check_unchanged(mapped, &given.state, t);
}

/* A set-up that is done leaves a fresh state and a zero table, one that is refused a zero state and the table as it was. */
static void check_set_up(const struct driver *mapped, const struct viommu_set_up_given *given, const struct table *t)
{
    if (given->number == VIOMMU_DONE) {
        struct driver fresh;
        fresh.state = shown_start(fresh.table);
        EXPECT(same_state(&given->state, &fresh.state));
        for (size_t i = 0; i < ROOM; i++)
            EXPECT(t->words[i] == (i < t->count ? 0 : NOT_LENT));
        return;
    }
    EXPECT(zero_state(&given->state));
    check_unchanged(mapped, &mapped->state, t);
}

/* A set-up with endpoint 8 of guest 0 and another endpoint of guest 1: one that is listed already is not good, and 2 comes
   before 5. */
static void show_set_up(const char *what, const struct driver *mapped, struct table *t, uint32_t other)
{
    const uint32_t endpoints[] = {8, other};
    const uint8_t owners[] = {0, 1};
    struct viommu_set_up_given given = viommu_set_up(shown_settings(), endpoints, 2, owners, 2, no_regions,
                                                     REGION_WORDS(2), t->words, t->count);
    print_number(what, given.number);
    print_sums(&given.state, t->words, t->count);
    check_set_up(mapped, &given, t);
}

/* Every call on one table; guest 2 is none, and 1 comes before 2. */
static void show_calls(const char *what, const struct driver *mapped, size_t count)
{
    struct table t = of_length(mapped, count);
    printf("%s\n", what);
    show_request(mapped, &t, 0);
    show_request(mapped, &t, 2);
    show_access(mapped, &t);
    show_fetch(mapped, &t);
    show_reset(mapped, &t);
    show_set_up("  set-up, endpoint twice", mapped, &t, 8);
    show_set_up("  set-up", mapped, &t, 9);
}

void show_tables(const struct driver *mapped)
{
    show_calls("no words", mapped, 0);
    show_calls("1279 words", mapped, 1279);
    show_calls("1281 words", mapped, 1281);
    show_calls("1280 words", mapped, 1280);
}
