/* Readable and writable parts of each length. All fields are zero, so what is served is answered NOENT, 6. */
#include <string.h>

#include "expect.h"
#include "show_lengths.h"
#include "shown.h"

#define READABLE_MOST (READABLE_ROOM + 1) /* bytes of the longest readable part */
#define WRITABLE_MOST 133                 /* bytes of the longest writable part */

/* The two parts of a request: the first bytes of each array. */
struct parts {
    uint8_t readable[READABLE_MOST];
    size_t readable_count;
    uint8_t writable[WRITABLE_MOST];
    size_t writable_count;
};

/* The type, then zeros, and a writable part of bytes 0xff. */
static struct parts parts_of(uint8_t type, size_t readable_count, size_t writable_count)
{
    struct parts p = {.readable = {type}, .readable_count = readable_count, .writable_count = writable_count};
    memset(p.writable, 0xff, sizeof p.writable);
    return p;
}

/* The readable part is as it was, and so is the writable part, lent or not, but for the bytes that a request has used. */
static void check_parts(const struct parts *before, const struct parts *after, size_t written)
{
    EXPECT(memcmp(after->readable, before->readable, sizeof before->readable) == 0);
    for (size_t i = written; i < WRITABLE_MOST; i++)
        EXPECT(after->writable[i] == before->writable[i]);
}

/* One request, which changes neither state nor table, and what it leaves. */
static void show(const char *what, const struct driver *d, uint8_t number, struct parts p)
{
    const struct parts before = p;
    struct driver lent = *d;
    struct viommu_guest guest = {number};
    printf("%s, %zu and %zu", what, p.readable_count, p.writable_count);
    struct viommu_request_given given = viommu_request(lent.state, lent.table, VIOMMU_TABLE_WORDS, guest, p.readable,
                                                       p.readable_count, p.writable, p.writable_count);
    print_number(" bytes", given.number);
    print_value(given.used);
    print_lent(p.writable, p.writable_count);
    print_sums(&given.state, lent.table, VIOMMU_TABLE_WORDS);
    check_parts(&before, &p, given.used);
    EXPECT(same_state(&given.state, &d->state));
    EXPECT(memcmp(lent.table, d->table, sizeof d->table) == 0);
}

/* Parts of so many bytes, of guest 0. */
static void show_lengths(const char *what, const struct driver *mapped, uint8_t type, size_t n, size_t m)
{
    show(what, mapped, 0, parts_of(type, n, m));
}

/* A type whose parts have n and m bytes: readable parts of each length, then writable parts that are too short or too long. */
static void show_type(const char *what, const struct driver *mapped, uint8_t type, size_t n, size_t m)
{
    show_lengths(what, mapped, type, 0, m);
    show_lengths(what, mapped, type, 3, m);
    show_lengths(what, mapped, type, 4, m);
    show_lengths(what, mapped, type, n - 1, m);
    show_lengths(what, mapped, type, n, m);
    show_lengths(what, mapped, type, n + 1, m);
    show_lengths(what, mapped, type, n, 0);
    show_lengths(what, mapped, type, n, m - 1);
    show_lengths(what, mapped, type, n, m + 1);
}

/* The lengths of one type with those of another. */
static void show_mixed(const struct driver *mapped)
{
    show_lengths("PROBE", mapped, VIOMMU_PROBE, 72, 4);
    show_lengths("PROBE", mapped, VIOMMU_PROBE, 72, 128);
    show_lengths("PROBE", mapped, VIOMMU_PROBE, 20, 132);
    show_lengths("ATTACH", mapped, VIOMMU_ATTACH, 20, 132);
    show_lengths("ATTACH", mapped, VIOMMU_ATTACH, 72, 4);
}

/* Types that there are not: 4 below four bytes, else 3, whatever the lengths. */
static void show_other_types(const struct driver *mapped)
{
    show_lengths("type 0", mapped, 0, 3, 4);
    show_lengths("type 0", mapped, 0, 4, 4);
    show_lengths("type 0", mapped, 0, 20, 4);
    show_lengths("type 6", mapped, 6, 3, 4);
    show_lengths("type 6", mapped, 6, 4, 4);
    show_lengths("type 6", mapped, 6, 72, 132);
    show_lengths("type 255", mapped, 255, 20, 0);
    show_lengths("type 255", mapped, 255, 20, 3);
    show_lengths("type 255", mapped, 255, 20, 5);
}

/* What comes before a part's length: 1, then 2. */
static void show_before(const struct driver *mapped)
{
    struct driver unsound = *mapped;
    unsound.state.live = 257;
    show("guest 2, unsound", &unsound, 2, parts_of(0, 3, 4));
    show("unsound", &unsound, 0, parts_of(0, 3, 4));
}

void show_parts(const struct driver *mapped)
{
    show_type("ATTACH", mapped, VIOMMU_ATTACH, 20, 4);
    show_type("DETACH", mapped, VIOMMU_DETACH, 20, 4);
    show_type("MAP", mapped, VIOMMU_MAP, 36, 4);
    show_type("UNMAP", mapped, VIOMMU_UNMAP, 28, 4);
    show_type("PROBE", mapped, VIOMMU_PROBE, 72, 132);
    show_mixed(mapped);
    show_other_types(mapped);
    show_before(mapped);
}
