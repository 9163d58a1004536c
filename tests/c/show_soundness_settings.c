/* The configuration in the state, no longer good. */
#include "show_soundness.h"

/* The guest count: with a count of 0 guest 0 is none, so a fetch gets 1 before 2. */
static void show_count(struct driver d)
{
    d.state.settings.guests = 0;
    show("guest count 0", &d);
    d.state.settings.guests = 5;
    show("guest count 5", &d);
}

/* The window of guest 1. */
static void show_window(struct driver d)
{
    d.state.settings.firsts[1] = 0xa0000000;
    show("guest 1's window: first above last", &d);
    d.state.settings.firsts[1] = 0x8fffffff;
    show("windows share an address", &d);
}

/* The share of guest 1. */
static void show_share(struct driver d)
{
    d.state.settings.shares[1] = 252;
    show("shares sum to 256", &d);
    d.state.settings.shares[1] = 253;
    show("shares sum to 257", &d);
}

/* The mask and the ranges, each put back before the next. */
static void show_ranges(struct driver d)
{
    const struct viommu_settings good = d.state.settings;
    d.state.settings.mask = 0;
    show("mask 0", &d);
    d.state.settings = good;
    d.state.settings.input.start = 0x100000000;
    show("input range: start above end", &d);
    d.state.settings = good;
    d.state.settings.domains.start = 16;
    show("domain range: start above end", &d);
}

/* The endpoint lists, each put back before the next. */
static void show_lists(struct driver d)
{
    d.state.listed = 33;
    show("33 endpoints", &d);
    d.state.listed = 2;
    d.state.owners[1] = 2;
    show("owner not below the guest count", &d);
    d.state.owners[1] = 1;
    d.state.endpoints[1] = 8;
    show("an endpoint twice", &d);
}

void show_settings(const struct driver *sound)
{
    show_count(*sound);
    show_window(*sound);
    show_share(*sound);
    show_ranges(*sound);
    show_lists(*sound);
}
