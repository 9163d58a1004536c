/* The words of the shared table after each call of a short run: live records first, ascending by key and virt_start
   whatever the order of the MAPs and of the guests, and zero in every other word. */
#include <inttypes.h>
#include <string.h>

#include "expect.h"
#include "regions.h"
#include "requests.h"
#include "shown.h"

static uint64_t table[VIOMMU_TABLE_WORDS];
static struct viommu_state state;  /* as the last call gave it back */
static struct viommu_state wanted; /* as the next call is to leave it */

/* Prints the words of the live records, a record to a line, and then the bits that are set in any other word. */
static void print_table(void)
{
    uint64_t rest = 0;
    for (size_t i = 0; i < VIOMMU_TABLE_WORDS; i++) {
        if (i / VIOMMU_RECORD_WORDS < state.live)
            printf("%" PRIx64 "%c", table[i], i % VIOMMU_RECORD_WORDS == VIOMMU_RECORD_WORDS - 1 ? '\n' : ' ');
        else
            rest |= table[i];
    }
    printf("other words %" PRIx64 "\n", rest);
}

/* Keeps the state that a call gave back, which is to be the wanted one. */
static void keep(const struct viommu_state *given)
{
    EXPECT(same_state(given, &wanted));
    state = *given;
}

/* A request, whose number and status are printed, and then the table. */
static void ask(const char *what, uint8_t guest, struct readable r)
{
    struct viommu_guest g = {guest};
    uint8_t writable[4] = {0xff, 0xff, 0xff, 0xff};
    struct viommu_request_given given =
        viommu_request(state, table, VIOMMU_TABLE_WORDS, g, r.bytes, r.count, writable, sizeof writable);
    EXPECT(given.used == 4 && writable[1] == 0 && writable[2] == 0 && writable[3] == 0);
    keep(&given.state);
    printf("%s: %u %u\n", what, given.number, writable[0]);
    print_table();
}

/* Set-up of endpoints 8 and 10 for guest 0 and 9 for guest 1, over a table that held other things. */
static void set_up(void)
{
    static const uint32_t endpoints[] = {8, 9, 10};
    static const uint8_t owners[] = {0, 1, 0};
    for (size_t i = 0; i < VIOMMU_TABLE_WORDS; i++)
        table[i] = 0xffff;
    wanted = (struct viommu_state){
        .settings = shown_settings(), .listed = 3, .endpoints = {8, 9, 10}, .owners = {0, 1, 0}};
    struct viommu_set_up_given given = viommu_set_up(shown_settings(), endpoints, 3, owners, 3, no_regions,
                                                     REGION_WORDS(3), table, VIOMMU_TABLE_WORDS);
    keep(&given.state);
    printf("set up: %u\n", given.number);
    print_table();
}

/* An ATTACH that moves the endpoint at this place into the domain, and nothing else of the state. */
static void attach_place(const char *what, size_t place, uint32_t domain)
{
    wanted.attached[place] = 1;
    wanted.domains[place] = domain;
    ask(what, wanted.owners[place], attach(domain, wanted.endpoints[place], 0));
}

/* A DETACH that takes the endpoint at this place out of its domain, and so many records with it. */
static void detach_place(const char *what, size_t place, size_t records)
{
    uint32_t domain = wanted.domains[place];
    wanted.attached[place] = 0;
    wanted.domains[place] = 0;
    wanted.live -= records;
    ask(what, wanted.owners[place], detach(domain, wanted.endpoints[place], 0));
}

/* A MAP that adds a record to the table, and to the state no more than the count of it. */
static void add(const char *what, uint8_t guest, struct readable r)
{
    wanted.live++;
    ask(what, guest, r);
}

/* Endpoint 8 of guest 0 and endpoint 9 of guest 1 are each attached to a domain 1, and endpoint 10 of guest 0 to 2. */
static void attach_three(void)
{
    attach_place("guest 0 attaches 8 to 1", 0, 1);
    attach_place("guest 1 attaches 9 to 1", 1, 1);
    attach_place("guest 0 attaches 10 to 2", 2, 2);
}

/* Five MAPs, given in another order than the table's. */
static void map_five(void)
{
    add("guest 1 maps 1000 to 1fff", 1, map(1, 0x1000, 0x1fff, 0x90001000, VIOMMU_FLAG_READ | VIOMMU_FLAG_WRITE));
    add("guest 0 maps 0 to fff in 2", 0, map(2, 0, 0xfff, 0x80000000, 0));
    add("guest 0 maps 6000 to 6fff", 0, map(1, 0x6000, 0x6fff, 0x80006000, VIOMMU_FLAG_READ));
    add("guest 0 maps 2000 to 2fff", 0, map(1, 0x2000, 0x2fff, 0x80002000, VIOMMU_FLAG_WRITE));
    add("guest 0 maps 4000 to 5fff", 0, map(1, 0x4000, 0x5fff, 0x80004000, VIOMMU_FLAG_READ | VIOMMU_FLAG_WRITE));
}

/* An UNMAP that would cut a record in two changes nothing. */
static void unmap_part(void)
{
    static uint64_t before[VIOMMU_TABLE_WORDS];
    memcpy(before, table, sizeof table);
    ask("guest 0 unmaps 4000 to 4fff", 0, unmap(1, 0x4000, 0x4fff, 0));
    EXPECT(memcmp(before, table, sizeof table) == 0);
}

/* The middle record of domain 1 goes. */
static void unmap_middle(void)
{
    wanted.live--;
    ask("guest 0 unmaps 3000 to 5fff", 0, unmap(1, 0x3000, 0x5fff, 0));
}

/* A reset of guest 0: all that it holds goes, and endpoint 8, which alone was attached still, is detached. */
static void reset(void)
{
    struct viommu_guest g = {0};
    wanted.attached[0] = 0;
    wanted.domains[0] = 0;
    wanted.live = 1;
    struct viommu_reset_given given = viommu_reset(state, table, VIOMMU_TABLE_WORDS, g);
    keep(&given.state);
    printf("reset guest 0: %u\n", given.number);
    print_table();
}

int main(void)
{
    set_up();
    struct viommu_state start = state;
    attach_three();
    map_five();
    unmap_part();
    unmap_middle();
    detach_place("guest 0 detaches 10 from 2", 2, 1); /* with its last endpoint, all of domain 2 goes */
    reset();
    detach_place("guest 1 detaches 9 from 1", 1, 1);
    EXPECT(same_state(&state, &start)); /* all is taken away again */
    return 0;
}
