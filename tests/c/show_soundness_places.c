/* The attachments, and the guest and endpoint places that are not in use. */
#include "show_soundness.h"

/* Endpoint 9, in place 1, attached to a domain that holds no record. */
static void show_attached(struct driver d)
{
    d.state.attached[1] = 1;
    d.state.domains[1] = 15;
    show("endpoint 9 attached to the last domain", &d);
    d.state.domains[1] = 16;
    show("attached to a domain above the range", &d);
    d.state.domains[1] = 0;
    show("attached to a domain below the range", &d);
}

/* Endpoint 9 with a flag that is 0, and one that is neither 0 nor 1. */
static void show_unattached(struct driver d)
{
    d.state.domains[1] = 5;
    show("unattached, with a domain", &d);
    d.state.attached[1] = 2;
    show("attached flag 2, with a domain", &d);
    d.state.domains[1] = 0;
    show("attached flag 2, with none", &d);
}

/* Place 2 of the guests: their settings, each put back before the next. */
static void show_guests(struct driver d)
{
    d.state.settings.shares[2] = 1;
    show("unused guest place: share", &d);
    d.state.settings.shares[2] = 0;
    d.state.settings.firsts[2] = 1;
    show("unused guest place: first", &d);
    d.state.settings.firsts[2] = 0;
    d.state.settings.lasts[2] = 1;
    show("unused guest place: last", &d);
}

/* Places 2 and 3 of the guests: their counts. */
static void show_counts(struct driver d)
{
    d.state.logged[2] = 1;
    show("unused guest place: log count", &d);
    d.state.logged[2] = 0;
    d.state.lost[3] = 1;
    show("unused guest place: lost count", &d);
}

/* Place 2 of the endpoints, and the last, each put back before the next. */
static void show_endpoints(struct driver d)
{
    d.state.endpoints[2] = 1;
    show("unused endpoint place: number", &d);
    d.state.endpoints[2] = 0;
    d.state.owners[2] = 1;
    show("unused endpoint place: owner", &d);
    d.state.owners[2] = 0;
    d.state.attached[2] = 1;
    show("unused endpoint place: attached flag", &d);
    d.state.attached[2] = 0;
    d.state.domains[31] = 1;
    show("unused endpoint place: domain", &d);
}

void show_places(const struct driver *sound)
{
    show_attached(*sound);
    show_unattached(*sound);
    show_guests(*sound);
    show_counts(*sound);
    show_endpoints(*sound);
}
