/* The two queries on any state and table at all. */
#include <string.h>

#include "expect.h"
#include "garbage.h"
#include "lent.h"

/* The guest's records, counted by the first words of those of the first live that the table has whole. */
static size_t counted(const struct device *d, uint8_t guest)
{
    size_t whole = d->words / VIOMMU_RECORD_WORDS;
    size_t n = d->state.live < whole ? d->state.live : whole;
    size_t count = 0;
    for (size_t i = 0; i < n; i++)
        count += d->table[VIOMMU_RECORD_WORDS * i] >> 32 == guest;
    return count;
}

void try_queries(struct random *r, const struct device *d, struct met *met)
{
    static struct lent table;
    if (!table.room)
        table = lent_room(sizeof d->table);
    struct viommu_guest guest = {(uint8_t)(once_in(r, 4) ? draw(r) : below(r, 5))};
    uint64_t *t = memcpy(lent_part(table, d->words * 8), d->table, d->words * 8);
    EXPECT(viommu_held(d->state, t, d->words, guest) == counted(d, guest.number));
    EXPECT(viommu_lost(d->state, guest) == (guest.number < VIOMMU_GUESTS ? d->state.lost[guest.number] : 0));
    EXPECT(memcmp(t, d->table, d->words * 8) == 0);
    lent_check(table, d->words * 8);
    met->calls += 2;
}
