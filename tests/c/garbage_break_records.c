/* Ways to break what "sound" asks of the live count, the records and the words after them. */
#include <string.h>

#include "garbage_break.h"

#define RECORD(d, i) ((d)->table + VIOMMU_RECORD_WORDS * (i))

/* "the live count is at most 256" */
static int live_257(struct device *d, uint64_t drawn)
{
    d->state.live = 257 + (drawn >> 40);
    return 1;
}

/* a record more than there are: five zero words, whose virt_end ≤ virt_start */
static int live_one_more(struct device *d, uint64_t drawn)
{
    (void)drawn;
    return d->state.live++ < VIOMMU_RECORDS;
}

/* a record less: its virt_end, above its virt_start, is then a word that should be zero */
static int live_one_less(struct device *d, uint64_t drawn)
{
    (void)drawn;
    return d->state.live-- > 0;
}

/* "order and zero words are as above" */
static int records_swapped(struct device *d, uint64_t drawn)
{
    uint64_t record[VIOMMU_RECORD_WORDS];
    if (d->state.live < 2)
        return 0;
    size_t i = pick(drawn, d->state.live - 1);
    memcpy(record, RECORD(d, i), sizeof record);
    memcpy(RECORD(d, i), RECORD(d, i + 1), sizeof record);
    memcpy(RECORD(d, i + 1), record, sizeof record);
    return 1;
}

static int word_after_records(struct device *d, uint64_t drawn)
{
    size_t used = VIOMMU_RECORD_WORDS * d->state.live;
    if (used == VIOMMU_TABLE_WORDS)
        return 0;
    d->table[used + pick(drawn >> 8, VIOMMU_TABLE_WORDS - used)] = 1 + (drawn & 0xff);
    return 1;
}

/* "every record would pass steps 1 to 6 of MAP": no endpoint of its guest is left in its domain */
static int domain_gone(struct device *d, uint64_t drawn)
{
    if (d->state.live == 0)
        return 0;
    uint64_t key = RECORD(d, pick(drawn, d->state.live))[0];
    for (size_t i = 0; i < d->state.listed; i++)
        if (((uint64_t)d->state.owners[i] << 32) + d->state.domains[i] == key)
            d->state.attached[i] = 0, d->state.domains[i] = 0;
    return 1;
}

/* step 2 */
static int record_flag_4(struct device *d, uint64_t drawn)
{
    if (d->state.live == 0)
        return 0;
    RECORD(d, pick(drawn >> 8, d->state.live))[4] |= (uint64_t)4 << (drawn & 0x1f);
    return 1;
}

/* step 3 */
static int record_empty(struct device *d, uint64_t drawn)
{
    if (d->state.live == 0)
        return 0;
    uint64_t *w = RECORD(d, pick(drawn, d->state.live));
    w[2] = w[1];
    return 1;
}

/* step 4: one of a record's three addresses is one less or one more */
static int word_unaligned(struct device *d, uint64_t drawn, size_t word)
{
    if (d->state.live == 0 || (d->state.settings.mask & 1) != 0)
        return 0;
    RECORD(d, pick(drawn >> 1, d->state.live))[word] += (drawn & 1) ? (uint64_t)-1 : 1;
    return 1;
}

static int virt_start_unaligned(struct device *d, uint64_t drawn)
{
    return word_unaligned(d, drawn, 1);
}

static int virt_end_unaligned(struct device *d, uint64_t drawn)
{
    return word_unaligned(d, drawn, 2);
}

static int phys_start_unaligned(struct device *d, uint64_t drawn)
{
    return word_unaligned(d, drawn, 3);
}

/* step 5: the input range ends within the record, or starts within it */
static int record_outside_input(struct device *d, uint64_t drawn)
{
    if (d->state.live == 0)
        return 0;
    const uint64_t *w = RECORD(d, pick(drawn >> 1, d->state.live));
    if (drawn & 1)
        d->state.settings.input.end = w[2] - 1;
    else
        d->state.settings.input.start = w[1] + 1;
    return 1;
}

/* step 6: the window ends within the record's memory, or starts within it */
static int record_outside_window(struct device *d, uint64_t drawn)
{
    if (d->state.live == 0)
        return 0;
    const uint64_t *w = RECORD(d, pick(drawn >> 1, d->state.live));
    size_t g = w[0] >> 32;
    if (drawn & 1)
        d->state.settings.lasts[g] = w[3] + (w[2] - w[1]) - 1;
    else
        d->state.settings.firsts[g] = w[3] + 1;
    return 1;
}

/* "no two records of one guest and domain overlap" */
static int records_overlap(struct device *d, uint64_t drawn)
{
    if (d->state.live < 2)
        return 0;
    size_t i = pick(drawn, d->state.live - 1);
    uint64_t *w = RECORD(d, i);
    if (w[0] != w[VIOMMU_RECORD_WORDS])
        return 0;
    w[2] = w[VIOMMU_RECORD_WORDS + 2];
    return 1;
}

/* "no guest holds more than its share" */
static int share_too_small(struct device *d, uint64_t drawn)
{
    if (d->state.live == 0)
        return 0;
    uint64_t g = RECORD(d, pick(drawn, d->state.live))[0] >> 32;
    uint32_t held = 0;
    for (size_t i = 0; i < d->state.live; i++)
        held += RECORD(d, i)[0] >> 32 == g;
    d->state.settings.shares[g] = held - 1;
    return 1;
}

const struct way record_ways[] = {
    WAY(live_257),
    WAY(live_one_more),
    WAY(live_one_less),
    WAY(records_swapped),
    WAY(word_after_records),
    WAY(domain_gone),
    WAY(record_flag_4),
    WAY(record_empty),
    WAY(virt_start_unaligned),
    WAY(virt_end_unaligned),
    WAY(phys_start_unaligned),
    WAY(record_outside_input),
    WAY(record_outside_window),
    WAY(records_overlap),
    WAY(share_too_small),
    {NULL, NULL},
};
