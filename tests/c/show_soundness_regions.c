/* Reserved regions, written into the state by hand. Endpoint 8, in place 0, is in domain 1 of guest 0, which has records of
   0x1000 to 0x1fff and of 0x3000 to 0x3fff; endpoint 9 of guest 1, in place 1, is in none. */
#include <stdio.h>
#include <string.h>

#include "expect.h"
#include "show_soundness.h"

#define RESERVED VIOMMU_REGION_RESERVED
#define MSI VIOMMU_REGION_MSI
#define BIT(n) ((uint64_t)1 << (n))

/* The words of the endpoint at this place. */
static uint64_t *words_of(struct driver *d, size_t place)
{
    return d->state.regions + VIOMMU_ENDPOINT_REGION_WORDS * place;
}

/* The endpoint at this place has these regions. */
static void give(struct driver *d, size_t place, struct viommu_regions q)
{
    memcpy(words_of(d, place), &q, sizeof q);
}

static void show_with(const char *what, struct driver d, struct viommu_regions q)
{
    give(&d, 0, q);
    show(what, &d);
}

/* Endpoint 8 has one region. */
static void show_one(const char *what, struct driver d, uint64_t subtype, uint64_t start, uint64_t end)
{
    show_with(what, d, (struct viommu_regions){1, {{subtype, start, end}}});
}

/* Four regions beside the records. */
static struct viommu_regions four(void)
{
    return (struct viommu_regions){
        4, {{RESERVED, 0x2000, 0x2fff}, {MSI, 0x4000, 0x4fff}, {RESERVED, 0x10, 0xfff}, {RESERVED, 0x5000, UINT64_MAX}}};
}

/* "Soundness gains the same rule": no record overlaps a region of an endpoint in its domain. */
static void show_met(struct driver d)
{
    struct viommu_regions q = four();
    show_one("a region between the records", d, RESERVED, 0x2000, 0x2fff);
    show_one("a region on a record's last address", d, RESERVED, 0x1fff, 0x2fff);
    show_one("a region on a record's first address", d, MSI, 0x2000, 0x3000);
    show_one("a region inside a record", d, RESERVED, 0x1800, 0x1800);
    show_one("a region around the records", d, RESERVED, 0, UINT64_MAX);
    show_one("a region that is a record's by 32 bits", d, RESERVED, BIT(32) + 0x1000, BIT(32) + 0x1fff);
    show_with("four regions beside the records", d, q);
    q.region[3].start = 0x3fff, q.region[1].start = 0x5000, q.region[1].end = 0x5000, q.region[3].end = 0x4fff;
    show_with("the last of four on a record", d, q);
}

/* Endpoint 10 of guest 0, in place 2, and a region on the first record: it binds in the record's domain alone. */
static void show_domain(struct driver d)
{
    d.state.listed = 3;
    d.state.endpoints[2] = 10;
    give(&d, 2, (struct viommu_regions){1, {{RESERVED, 0x1000, 0x1000}}});
    show("on a record, of an endpoint that is unattached", &d);
    d.state.attached[2] = 1;
    d.state.domains[2] = 2;
    show("on a record, of an endpoint in another domain", &d);
    d.state.domains[2] = 1;
    show("on a record, of the domain's second endpoint", &d);
    d.state.owners[2] = 1;
    show("on a record, of an endpoint in another guest's domain 1", &d);
}

/* The endpoint at this place has this number and is in this domain. */
static void place(struct driver *d, size_t i, uint32_t endpoint, uint32_t domain)
{
    d->state.endpoints[i] = endpoint;
    d->state.attached[i] = 1;
    d->state.domains[i] = domain;
}

/* A record of the pages from first to last. */
static void map_pages(struct driver *d, uint8_t guest, uint32_t domain, uint64_t first, uint64_t last)
{
    uint64_t phys = d->state.settings.firsts[guest] + first * 0x1000;
    EXPECT(ask(d, guest, map(domain, first * 0x1000, last * 0x1000 + 0xfff, phys, 0)) == VIOMMU_STATUS_OK);
}

/* Endpoint 10 of guest 0 is in domain 2, whose records are pages 2, 5, 6 to 8 and 11. Before them in the table's order stand those of
   domain 1, pages 1 and 3, after them those of domain 3, pages 0 and 9, and of guest 1's domain 2, pages 4 and 10. A region of
   endpoint 10 of one address, in the middle of each page in turn. */
static void show_pages(struct driver d)
{
    d.state.listed = 4;
    d.state.settings.shares[0] = d.state.settings.shares[1] = 16;
    place(&d, 1, 9, 2);
    place(&d, 2, 10, 2);
    place(&d, 3, 11, 3);
    map_pages(&d, 0, 2, 11, 11), map_pages(&d, 0, 2, 2, 2), map_pages(&d, 0, 2, 6, 8), map_pages(&d, 0, 2, 5, 5);
    map_pages(&d, 0, 3, 0, 0), map_pages(&d, 0, 3, 9, 9);
    map_pages(&d, 1, 2, 4, 4), map_pages(&d, 1, 2, 10, 10);
    for (uint64_t page = 0; page <= 12; page++) {
        char what[40];
        uint64_t address = page * 0x1000 + 0x800;
        give(&d, 2, (struct viommu_regions){1, {{RESERVED, address, address}}});
        snprintf(what, sizeof what, "a region in page %d", (int)page);
        show(what, &d);
    }
}

/* The regions themselves, as set-up would refuse them. */
static void show_good(struct driver d)
{
    show_one("subtype 2", d, 2, 0x2000, 0x2fff);
    show_one("subtype 2^32 + 1", d, BIT(32) + 1, 0x2000, 0x2fff);
    show_one("region start above end", d, RESERVED, 0x2001, 0x2000);
    show_with("regions that meet", d, (struct viommu_regions){2, {{RESERVED, 0x2000, 0x27ff}, {MSI, 0x2800, 0x2fff}}});
    show_with("regions that overlap", d, (struct viommu_regions){2, {{RESERVED, 0x2000, 0x2800}, {MSI, 0x2800, 0x2fff}}});
    show_with("two MSI regions", d, (struct viommu_regions){2, {{MSI, 0x2000, 0x27ff}, {MSI, 0x2800, 0x2fff}}});
}

/* The number of regions. A region of zeros is one, of address 0; two of them overlap. */
static void show_count(struct driver d)
{
    struct viommu_regions q = four();
    q.count = 3;
    show_with("3 regions, with four", d, q);
    q.count = 5;
    show_with("5 regions, with four", d, q);
    q.count = BIT(32) + 4;
    show_with("2^32 + 4 regions, with four", d, q);
    show_with("1 region, with none", d, (struct viommu_regions){1, {{0}}});
    show_with("2 regions, with none", d, (struct viommu_regions){2, {{0}}});
    show_with("5 regions, with none", d, (struct viommu_regions){5, {{0}}});
    show_with("2^63 regions, with none", d, (struct viommu_regions){BIT(63), {{0}}});
}

/* One word of the endpoint at this place is set. */
static void show_word(const char *what, struct driver d, size_t place, size_t word, uint64_t x)
{
    words_of(&d, place)[word] = x;
    show(what, &d);
}

/* Words that no region uses: of endpoint 9, which has one region, of a place without an endpoint, and of the last. */
static void show_unused(struct driver d)
{
    give(&d, 1, (struct viommu_regions){1, {{RESERVED, 0x1000, 0x1000}}});
    show("endpoint 9's region", &d);
    show_word("unused region place: subtype", d, 1, 4, 1);
    show_word("unused region place: start", d, 1, 5, BIT(32));
    show_word("unused region place: end", d, 1, 6, 1);
    show_word("unused region place: the fourth's end", d, 1, 12, BIT(63));
    show_word("unused region place of an endpoint without one", d, 0, 1, 1);
    show_word("unused endpoint place: number of regions", d, 2, 0, 1);
    show_word("unused endpoint place: a region's end", d, 2, 3, 1);
    show_word("the last endpoint place: a region's end", d, 31, 12, BIT(48));
}

void show_regions(const struct driver *sound)
{
    show_met(*sound);
    show_domain(*sound);
    show_pages(*sound);
    show_good(*sound);
    show_count(*sound);
    show_unused(*sound);
}
