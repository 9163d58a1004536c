/* Refusals by length: 2 for a table that has not 1,280 words, 4 for a request part that has not the type's length. Each
   line ends with the sum of the state's numbers and the sum of the table's words, which a refusal leaves as they were,
   as it leaves the lent bytes. */
#include "show_lengths.h"

#include <inttypes.h>

#include "expect.h"
#include "shown.h"

void print_number(const char *what, uint8_t number)
{
    printf("%s: %u", what, (unsigned)number);
}

void print_value(uint64_t value)
{
    printf(" %" PRIx64, value);
}

void print_lent(const uint8_t *bytes, size_t count)
{
    printf(" [");
    print_bytes(bytes, count);
    printf("]");
}

void print_sums(const struct viommu_state *s, const uint64_t *table, size_t words)
{
    printf(", %" PRIx64 " %" PRIx64 "\n", sum_state(s), sum_words(table, words));
}

/* Endpoint 8 of guest 0 is attached to domain 1, which maps 0x1000 to 0x1fff to 0x8000a000 for reads. */
static void make_mapped(struct driver *d)
{
    d->state = shown_start(d->table);
    EXPECT(ask(d, 0, attach(1, 8, 0)) == VIOMMU_STATUS_OK);
    EXPECT(ask(d, 0, map(1, 0x1000, 0x1fff, 0x8000a000, VIOMMU_FLAG_READ)) == VIOMMU_STATUS_OK);
}

/* The tables, then the parts. */
int main(void)
{
    static struct driver mapped;
    make_mapped(&mapped);
    show_tables(&mapped);
    show_parts(&mapped);
    return 0;
}
