/* Soundness, bit by bit: on devices of several kinds every bit of the state and of the table is changed, alone, and every
   number becomes others that agree with it in their low bits; a call then gets 2 exactly where a clause of document 01 no
   longer holds. In a place that is not in use, and in a word after the records, every bit makes the device unsound. */
#include <inttypes.h>
#include <string.h>

#include "bits.h"
#include "expect.h"
#include "requests.h"

static struct met met;
static uint64_t sound_changes, unsound_changes;

/* A call on the changed device, a request, an access, a reset and a fetch in turn; what it leaves is left behind. */
static void try_changed(struct device *d, enum soundness soundness)
{
    static const enum entry entries[] = {REQUEST, ACCESS, RESET, FETCH};
    struct readable r = attach(d->state.settings.domains.start, d->state.endpoints[0], 0);
    struct call c = {
        .entry = entries[met.calls % 4],
        .endpoint = {d->state.endpoints[0]},
        .address = d->table[1],
        .kind = VIOMMU_READ,
        .readable_bytes = r.count,
        .writable_bytes = 4,
    };
    memcpy(c.readable, r.bytes, r.count);
    *(soundness == SOUND ? &sound_changes : &unsound_changes) += 1;
    try_call(&c, d, soundness, &met);
}

/* The number of so many bytes at a place of the device becomes another. */
static void try_number(const struct device *d, size_t offset, size_t width, uint64_t number, int unused)
{
    static struct device changed;
    changed = *d;
    memcpy((uint8_t *)&changed + offset, &number, width);
    enum soundness soundness = soundness_of(&changed);
    EXPECT(!unused || soundness == BROKEN);
    try_changed(&changed, soundness);
}

/* Each bit of the number at this place changed, then numbers that agree with it in 8, 16, 24, 32, 40, 48 and 56 low bits. */
static void try_place(struct random *r, const struct device *d, size_t offset, size_t width, int unused)
{
    uint64_t old = 0;
    memcpy(&old, (const uint8_t *)d + offset, width);
    for (size_t bit = 0; bit < 8 * width; bit++)
        try_number(d, offset, width, old ^ (uint64_t)1 << bit, unused);
    for (size_t low = 8; low < 8 * width; low += 8)
        try_number(d, offset, width, old ^ (draw(r) | 1) << low, unused);
}

/* Two numbers in places that are not in use, whose sum is 0, or which are the same. */
static void try_two(struct random *r, const struct device *d, size_t one, size_t other)
{
    static struct device changed;
    changed = *d;
    changed.table[one] = draw(r) | 1;
    changed.table[other] = once_in(r, 2) ? -changed.table[one] : changed.table[one];
    try_changed(&changed, BROKEN);
}

static void try_table(struct random *r, const struct device *d)
{
    size_t used = VIOMMU_RECORD_WORDS * d->state.live;
    for (size_t i = 0; i < VIOMMU_TABLE_WORDS; i++)
        try_place(r, d, offsetof(struct device, table) + 8 * i, 8, i >= used);
    for (size_t i = used; i + 1 < VIOMMU_TABLE_WORDS; i++)
        try_two(r, d, i, i + 1 + below(r, VIOMMU_TABLE_WORDS - i - 1));
}

/* Whether word i of the regions is not in use: of an endpoint that is not listed, or after the regions that there are. */
static int is_unused_word(const struct viommu_state *s, size_t i)
{
    size_t endpoint = i / VIOMMU_ENDPOINT_REGION_WORDS, word = i % VIOMMU_ENDPOINT_REGION_WORDS;
    return endpoint >= s->listed || word > VIOMMU_REGION_WORDS * s->regions[VIOMMU_ENDPOINT_REGION_WORDS * endpoint];
}

/* Whether the element of the field stands in a place of a guest, an endpoint, a region or a fault that is not in use. */
static int is_unused(const struct viommu_state *s, struct field f, size_t i)
{
    switch (f.count) {
    case VIOMMU_GUESTS: return i >= s->settings.guests;
    case VIOMMU_ENDPOINTS: return i >= s->listed;
    case VIOMMU_REGION_PLACES: return is_unused_word(s, i);
    case VIOMMU_FAULT_PLACES: return i % VIOMMU_FAULTS >= s->logged[i / VIOMMU_FAULTS];
    default: return 0;
    }
}

static void try_state(struct random *r, const struct device *d)
{
    for (const struct field *f = fields; f->count > 0; f++)
        for (size_t i = 0; i < f->count; i++)
            try_place(r, d, offsetof(struct device, state) + f->offset + i * f->width, f->width, is_unused(&d->state, *f, i));
}

int main(void)
{
    struct random r = seeded(1);
    static struct device d;
    size_t kinds = 0;
    while (make_kind(kinds, &d)) {
        EXPECT(soundness_of(&d) == SOUND);
        try_state(&r, &d);
        try_table(&r, &d);
        kinds++;
    }
    printf("bits: %zu devices, %" PRIu64 " changes that leave them sound, %" PRIu64 " that do not\n", kinds, sound_changes,
           unsound_changes);
    return 0;
}
