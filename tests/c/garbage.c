/* More than a million calls on sound, damaged and random states, tables and buffers. usage: garbage [SEED] */
#include <inttypes.h>
#include <string.h>

#include "expect.h"
#include "garbage.h"

#define DEVICES 400
#define TURNS 2000 /* of each device */
#define WAYS_MOST 64

static struct met met;
static uint64_t met_ways[WAYS_MOST];

/* A call on a copy of the damaged device, so that what it leaves is left behind. */
static void on_copy(struct random *r, const struct device *copy)
{
    static struct device d;
    d = *copy;
    struct call c = draw_call(r, &d);
    try_call(&c, &d, soundness_of(&d), &met);
    try_queries(r, copy, &met);
}

/* The device with one clause of soundness broken. The call is drawn for it whole, so that it would be worked else. */
static void try_broken(struct random *r, struct device *copy)
{
    struct call c = draw_call(r, copy);
    size_t way = below(r, ways_to_break());
    if (broken(r, way, copy)) {
        EXPECT(soundness_of(copy) == BROKEN);
        try_call(&c, copy, BROKEN, &met);
        met_ways[way]++;
    }
}

/* One turn of a sound device: most turns move it on, the others use a copy. */
static void turn(struct random *r, struct device *d)
{
    static struct device copy, after;
    struct call c = draw_call(r, d);
    try_call(&c, d, SOUND, &met);
    if (once_in(r, 2))
        return;
    EXPECT(soundness_of(d) == SOUND);
    copy = *d;
    switch (below(r, 8)) {
    case 0: damage_length(r, &copy); on_copy(r, &copy); break;
    case 1: damage_all(r, &copy); on_copy(r, &copy); break;
    case 2:
    case 3: damage_one_field(r, &copy); on_copy(r, &copy); break;
    case 4: try_queries(r, &copy, &met); try_set_up(r, &after, &met); break;
    default: try_broken(r, &copy); break;
    }
}

/* Prints how often each number was met, and fails where one that may be given was not. */
static void report(const char *name, const uint64_t *counts, const char *may_be_given)
{
    printf("garbage: %-8s", name);
    for (const char *n = may_be_given; *n; n++)
        printf(" %c:%" PRIu64, *n, counts[*n - '0']);
    printf("\n");
    for (const char *n = may_be_given; *n; n++)
        EXPECT(counts[*n - '0'] > 0);
    for (size_t n = 0; n < NUMBERS; n++)
        EXPECT(counts[n] == 0 || strchr(may_be_given, (int)('0' + n)));
}

static void report_all(void)
{
    report("set-up", met.numbers[SET_UP], "025");
    report("request", met.numbers[REQUEST], "01234");
    report("status", met.statuses, "0245678");
    report("access", met.numbers[ACCESS], "02678");
    report("reset", met.numbers[RESET], "012");
    report("fetch", met.numbers[FETCH], "012");
    printf("garbage: PROBE    OK:%" PRIu64 " NOENT:%" PRIu64 "\n", met.probes[1], met.probes[0]);
    EXPECT(met.probes[0] > 0 && met.probes[1] > 0);
    for (size_t way = 0; way < ways_to_break(); way++)
        if (met_ways[way] == 0)
            fprintf(stderr, "not met: %s\n", name_of_way(way)), exit(1);
    printf("garbage: %zu ways to break soundness, each met\n", ways_to_break());
}

int main(int count, char **words)
{
    uint64_t seed = count > 1 ? strtoull(words[1], NULL, 10) : 1;
    struct random r = seeded(seed);
    static struct device d;
    EXPECT(ways_to_break() <= WAYS_MOST);
    for (size_t n = 0; n < DEVICES; n++) {
        while (!try_set_up(&r, &d, &met))
            ;
        for (size_t i = 0; i < TURNS; i++)
            turn(&r, &d);
    }
    report_all();
    printf("garbage: %" PRIu64 " calls from seed %" PRIu64 "\n", met.calls, seed);
    EXPECT(met.calls >= 1000000);
    return 0;
}
