/* The parts of the garbage run: what is drawn, what is called, what is expected, and what was met. */
#ifndef GARBAGE_H
#define GARBAGE_H

#include "layout.h"
#include "random.h"

#define NUMBERS 9          /* numbers 0 to 8; statuses too */
#define TABLE_ROOM 1600    /* words of the longest table that is lent */
#define READABLE_MOST 80   /* bytes of the longest readable part */
#define LIST_MOST 40       /* endpoints of the longest lists that are lent */
#define WRITABLE_MOST 420  /* bytes of the longest writable part or fetch buffer: 17 faults and a bit */

enum entry { SET_UP, REQUEST, ACCESS, RESET, FETCH, ENTRIES };

/* A state, and a table of so many words with it. */
struct device {
    struct viommu_state state;
    size_t words;
    uint64_t table[TABLE_ROOM];
};

/* The three lists of a set-up. */
struct lists {
    uint32_t endpoints[LIST_MOST];
    size_t endpoint_count;
    uint8_t owners[LIST_MOST];
    size_t owner_count;
    struct viommu_regions regions[LIST_MOST];
    size_t region_words;
};

/* A call of any entry but set-up; fields that the entry does not take are not looked at. */
struct call {
    enum entry entry;
    struct viommu_guest guest;
    struct viommu_endpoint endpoint;
    uint64_t address;
    uint8_t kind;
    uint8_t readable[READABLE_MOST];
    size_t readable_bytes;
    uint8_t writable[WRITABLE_MOST]; /* as lent */
    size_t writable_bytes;
};

/* What was met: how often each entry gave each number, and how often each status came back, of PROBEs by itself. */
struct met {
    uint64_t calls;
    uint64_t numbers[ENTRIES][NUMBERS];
    uint64_t statuses[NUMBERS];
    uint64_t probes[2]; /* PROBEs answered NOENT, and OK */
};

/* garbage_set_up.c: sets a device up from drawn settings and lists, checks what comes back, and says whether it was done. */
int try_set_up(struct random *r, struct device *d, struct met *met);

/* garbage_good.c: document 01's "Configuration is good when", and what document 02 asks of an endpoint's regions. */
int good(const struct viommu_settings *s, const struct lists *l);

/* garbage_regions.c: the regions of the endpoint at a place of the state; whether an address is in two ranges; and how many of
   an endpoint's words are in use. */
struct viommu_regions regions_at(const struct viommu_state *s, size_t place);
int ranges_meet(uint64_t a, uint64_t b, uint64_t c, uint64_t d);
size_t region_words_used(const struct viommu_regions *q);

/* garbage_regions.c: good regions for so many endpoints, most of them where MAPs are drawn, and one thing in them changed. */
void draw_regions(struct random *r, const struct viommu_settings *s, struct lists *l);
void spoil_regions(struct random *r, struct lists *l);

/* garbage_draw.c: a call that has a good chance of being worked on this device. */
struct call draw_call(struct random *r, const struct device *d);

/* garbage_sound.c: document 01's "State and table are sound when". */
enum soundness { SOUND, BROKEN };
enum soundness soundness_of(const struct device *d);

/* garbage_wanted.c: the number that 01 asks for, and the value that goes with number 0. */
unsigned wanted_number(const struct call *c, const struct device *d, enum soundness soundness);
uint64_t wanted_value(const struct call *c, const struct device *d);

/* garbage_probe.c: whether the call is a PROBE; and the bytes that one, answered 0, is to write. */
int is_probe(const struct call *c);
void wanted_probe(const struct call *c, const struct viommu_state *s, uint8_t bytes[VIOMMU_PROBE_BYTES]);

/* garbage_effect.c: makes d what a call, answered so, is to leave it; a request answered OK leaves it to the rules. */
void wanted_effect(const struct call *c, uint8_t number, struct device *d);

/* garbage_call.c: makes the call, checks all that it gives back and leaves, and moves the device on. */
void try_call(const struct call *c, struct device *d, enum soundness soundness, struct met *met);

/* garbage_queries.c: asks for a guest's records and lost count. */
void try_queries(struct random *r, const struct device *d, struct met *met);

/* garbage_break.c: breaks a clause of "sound"; 0 where this device has nothing to break by it. */
size_t ways_to_break(void);
int broken(struct random *r, size_t way, struct device *d);
const char *name_of_way(size_t way);

/* A field of the state: where it starts, the bytes of an element, the number of elements. */
struct field {
    size_t offset;
    size_t width;
    size_t count;
};

/* garbage_damage.c: the fields of the state, up to one without elements; and damage after which the device may or may not be
   sound. */
extern const struct field fields[];
void damage_one_field(struct random *r, struct device *d);
void damage_length(struct random *r, struct device *d);
void damage_all(struct random *r, struct device *d);

#endif
