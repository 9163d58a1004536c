/* The logs and the lost counts. Guest 0 has one fault, in place 0; its places are 0 to 15, those of guest 1 16 to 31. */
#include "expect.h"
#include "show_soundness.h"

/* The log's count, past that of a full log. */
static void show_past_full(struct driver d)
{
    for (size_t more = 1; more < VIOMMU_FAULTS; more++)
        EXPECT(reach(&d, 8, 0x5000, more % 2 ? VIOMMU_READ : VIOMMU_WRITE).number == VIOMMU_UNMAPPED);
    EXPECT(d.state.logged[0] == 16 && d.state.lost[0] == 0);
    show("log count 16", &d);
    d.state.logged[0] = 17;
    show("log count 17", &d);
}

/* The log's count beside one fault. */
static void show_logged(struct driver d)
{
    d.state.logged[0] = 2;
    show("log count 2, with one fault", &d);
    d.state.logged[0] = 0;
    show("log count 0, with one fault", &d);
}

/* The lost counts. */
static void show_lost(struct driver d)
{
    d.state.lost[0] = 65535;
    show("lost count 65535", &d);
    d.state.lost[0] = 65536;
    show("lost count 65536", &d);
    d.state.lost[0] = 0;
    d.state.lost[1] = 65536;
    show("guest 1's lost count 65536", &d);
}

/* Places that no fault uses, one of each field, of guests 0 and 1 and of one that there is not, each put back before the
   next. */
static void show_unused(struct driver d)
{
    d.state.reasons[1] = 1;
    show("unused fault place: reason", &d);
    d.state.reasons[1] = 0;
    d.state.flags[15] = 257;
    show("unused fault place: flags", &d);
    d.state.flags[15] = 0;
    d.state.sources[16] = 9;
    show("unused fault place: endpoint", &d);
    d.state.sources[16] = 0;
    d.state.addresses[63] = 1;
    show("unused fault place: address", &d);
}

/* The logged fault's reason. */
static void show_reason(struct driver d)
{
    d.state.reasons[0] = 1;
    show("reason 1", &d);
    d.state.reasons[0] = 0;
    show("reason 0", &d);
    d.state.reasons[0] = 3;
    show("reason 3", &d);
}

/* The logged fault's flags. */
static void show_flags(struct driver d)
{
    d.state.flags[0] = 258;
    show("flags WRITE and ADDRESS", &d);
    d.state.flags[0] = 1;
    show("flags READ, no ADDRESS", &d);
    d.state.flags[0] = 256;
    show("flags ADDRESS alone", &d);
    d.state.flags[0] = 259;
    show("flags READ, WRITE and ADDRESS", &d);
    d.state.flags[0] = 65793;
    show("flags with a bit more", &d);
}

/* The logged fault's endpoint. */
static void show_source(struct driver d)
{
    d.state.sources[0] = 9;
    show("an endpoint of guest 1", &d);
    d.state.sources[0] = 10;
    show("an endpoint that is not listed", &d);
}

void show_faults(const struct driver *sound)
{
    show_past_full(*sound);
    show_logged(*sound);
    show_lost(*sound);
    show_unused(*sound);
    show_reason(*sound);
    show_flags(*sound);
    show_source(*sound);
}
