/* One call on lent memory, and everything that it gives back and leaves checked. */
#include <string.h>

#include "expect.h"
#include "garbage.h"
#include "lent.h"

/* What any entry gives back: value is the used length, the address or the fetched count. */
struct outcome {
    uint8_t number;
    uint64_t value;
    struct viommu_state state;
};

/* The lent memory of a call. */
struct memory {
    uint64_t *table;
    uint8_t *readable;
    uint8_t *writable;
};

static struct lent tables, readables, writables;

static struct memory lend(const struct call *c, const struct device *d)
{
    if (!tables.room) {
        tables = lent_room(sizeof d->table);
        readables = lent_room(sizeof c->readable);
        writables = lent_room(sizeof c->writable);
    }
    struct memory m = {
        memcpy(lent_part(tables, d->words * 8), d->table, d->words * 8),
        memcpy(lent_part(readables, c->readable_bytes), c->readable, c->readable_bytes),
        memcpy(lent_part(writables, c->writable_bytes), c->writable, c->writable_bytes),
    };
    return m;
}

/* Nothing was written before what was lent, and the readable part is as it was. */
static void check_memory(const struct call *c, const struct device *d, struct memory m)
{
    lent_check(tables, d->words * 8);
    lent_check(readables, c->readable_bytes);
    lent_check(writables, c->writable_bytes);
    EXPECT(memcmp(m.readable, c->readable, c->readable_bytes) == 0);
}

static struct outcome make(const struct call *c, const struct device *d, struct memory m)
{
    if (c->entry == REQUEST) {
        struct viommu_request_given g = viommu_request(d->state, m.table, d->words, c->guest, m.readable,
                                                       c->readable_bytes, m.writable, c->writable_bytes);
        return (struct outcome){g.number, g.used, g.state};
    }
    if (c->entry == ACCESS) {
        struct viommu_access_given g = viommu_access(d->state, m.table, d->words, c->endpoint, c->address, c->kind);
        return (struct outcome){g.number, g.address, g.state};
    }
    if (c->entry == RESET) {
        struct viommu_reset_given g = viommu_reset(d->state, m.table, d->words, c->guest);
        return (struct outcome){g.number, 0, g.state};
    }
    struct viommu_fetch_given g = viommu_fetch(d->state, m.table, d->words, c->guest, m.writable, c->writable_bytes);
    return (struct outcome){g.number, g.count, g.state};
}

/* How many first bytes of the writable part the call was to write. */
static size_t written(const struct call *c, const struct outcome *o)
{
    if (o->number != VIOMMU_DONE)
        return 0;
    if (c->entry == REQUEST)
        return o->value;
    return c->entry == FETCH ? VIOMMU_FAULT_BYTES * o->value : 0;
}

/* A request answered OK moves attachments and records alone. */
static void check_served(const struct viommu_state *before, const struct viommu_state *after)
{
    struct viommu_state wanted = *before;
    memcpy(wanted.attached, after->attached, sizeof wanted.attached);
    memcpy(wanted.domains, after->domains, sizeof wanted.domains);
    wanted.live = after->live;
    EXPECT(memcmp(&wanted, after, sizeof wanted) == 0);
    EXPECT(after->live <= before->live + 1);
}

/* A request that was worked: its last four bytes, the status among them. UNSUPP is ATTACH's. Gives the status. */
static uint8_t check_status(const struct call *c, const uint8_t *last, struct met *met)
{
    static const uint8_t may_be_given[NUMBERS] = {1, 0, 1, 0, 1, 1, 1, 1, 1};
    EXPECT(last[0] < NUMBERS && may_be_given[last[0]]);
    EXPECT(last[0] != VIOMMU_STATUS_UNSUPP || c->readable[0] == VIOMMU_ATTACH);
    EXPECT(last[1] == 0 && last[2] == 0 && last[3] == 0);
    met->statuses[last[0]]++;
    return last[0];
}

/* Whether the call may have moved attachments and records: a request answered OK that is no PROBE. A PROBE's bytes are checked
   whole. */
static int may_have_moved(const struct call *c, const struct outcome *o, struct memory m, const struct device *d,
                          struct met *met)
{
    if (o->number != VIOMMU_DONE || c->entry != REQUEST)
        return 0;
    uint8_t status = check_status(c, m.writable + c->writable_bytes - VIOMMU_STATUS_BYTES, met);
    if (!is_probe(c))
        return status == VIOMMU_STATUS_OK;
    uint8_t wanted[VIOMMU_PROBE_BYTES];
    wanted_probe(c, &d->state, wanted);
    EXPECT(memcmp(m.writable, wanted, sizeof wanted) == 0);
    met->probes[status == VIOMMU_STATUS_OK]++;
    return 0;
}

/* State and table afterwards; d is still as before the call, and becomes as after it. */
static void check_effect(const struct call *c, const struct outcome *o, struct memory m, struct device *d, struct met *met)
{
    if (may_have_moved(c, o, m, d, met)) {
        check_served(&d->state, &o->state);
        d->state = o->state;
        memcpy(d->table, m.table, d->words * 8);
        return;
    }
    wanted_effect(c, o->number, d);
    EXPECT(memcmp(&o->state, &d->state, sizeof d->state) == 0);
    EXPECT(memcmp(m.table, d->table, d->words * 8) == 0);
}

void try_call(const struct call *c, struct device *d, enum soundness soundness, struct met *met)
{
    struct memory m = lend(c, d);
    struct outcome o = make(c, d, m);
    check_memory(c, d, m);
    EXPECT(o.number == wanted_number(c, d, soundness));
    EXPECT(o.value == (o.number == VIOMMU_DONE ? wanted_value(c, d) : 0));
    size_t n = written(c, &o);
    EXPECT(memcmp(m.writable + n, c->writable + n, c->writable_bytes - n) == 0);
    check_effect(c, &o, m, d, met);
    met->calls++;
    met->numbers[c->entry][o.number]++;
}
