/* What a call is to leave in state and table. */
#include <string.h>

#include "garbage.h"

/* Fault place b gets what stands at place a. */
static void move_fault(struct viommu_state *s, size_t b, size_t a)
{
    s->reasons[b] = s->reasons[a];
    s->flags[b] = s->flags[a];
    s->sources[b] = s->sources[a];
    s->addresses[b] = s->addresses[a];
}

static void clear_fault(struct viommu_state *s, size_t place)
{
    s->reasons[place] = 0;
    s->flags[place] = 0;
    s->sources[place] = 0;
    s->addresses[place] = 0;
}

/* "Log full: the new one is dropped, the lost count rises by one until 65,535." */
static void log_fault(const struct call *c, uint8_t number, struct viommu_state *s)
{
    size_t i = 0;
    while (s->endpoints[i] != c->endpoint.number)
        i++;
    size_t guest = s->owners[i];
    if (s->logged[guest] == VIOMMU_FAULTS) {
        s->lost[guest] += s->lost[guest] < VIOMMU_LOST_LIMIT;
        return;
    }
    size_t place = VIOMMU_FAULTS * guest + s->logged[guest]++;
    s->reasons[place] = number == VIOMMU_UNATTACHED ? VIOMMU_REASON_DOMAIN : VIOMMU_REASON_MAPPING;
    s->flags[place] = c->kind == VIOMMU_READ ? 257 : 258;
    s->sources[place] = c->endpoint.number;
    s->addresses[place] = c->address;
}

/* "removes them": the faults after the fetched ones move to the front of the log. */
static void remove_faults(struct viommu_state *s, size_t guest, size_t count)
{
    size_t first = VIOMMU_FAULTS * guest;
    size_t left = s->logged[guest] - count;
    for (size_t i = 0; i < left; i++)
        move_fault(s, first + i, first + i + count);
    for (size_t i = left; i < VIOMMU_FAULTS; i++)
        clear_fault(s, first + i);
    s->logged[guest] = left;
}

/* The other guests' records, in their order, and zeros after them. */
static void remove_records(struct device *d, uint64_t guest)
{
    size_t kept = 0;
    for (size_t i = 0; i < d->state.live; i++) {
        const uint64_t *w = d->table + VIOMMU_RECORD_WORDS * i;
        if (w[0] >> 32 != guest)
            memmove(d->table + VIOMMU_RECORD_WORDS * kept++, w, VIOMMU_RECORD_WORDS * sizeof *w);
    }
    memset(d->table + VIOMMU_RECORD_WORDS * kept, 0, (VIOMMU_TABLE_WORDS - VIOMMU_RECORD_WORDS * kept) * sizeof *d->table);
    d->state.live = kept;
}

/* "Reset of a guest: its endpoints detached, its records gone, its log empty, its lost count 0." */
static void reset(struct device *d, uint8_t guest)
{
    for (size_t i = 0; i < d->state.listed; i++)
        if (d->state.owners[i] == guest) {
            d->state.attached[i] = 0;
            d->state.domains[i] = 0;
        }
    remove_records(d, guest);
    remove_faults(&d->state, guest, d->state.logged[guest]);
    d->state.lost[guest] = 0;
}

void wanted_effect(const struct call *c, uint8_t number, struct device *d)
{
    if (number == VIOMMU_UNATTACHED || number == VIOMMU_UNMAPPED)
        log_fault(c, number, &d->state);
    if (number == VIOMMU_DONE && c->entry == RESET)
        reset(d, c->guest.number);
    if (number == VIOMMU_DONE && c->entry == FETCH)
        remove_faults(&d->state, c->guest.number, wanted_value(c, d));
}
