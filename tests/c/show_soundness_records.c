/* The table: its live records, in words 0 to 4 and 5 to 9, and the zero words after them. */
#include "show_soundness.h"

/* One word changed. */
static void show_word(const char *what, struct driver d, size_t i, uint64_t x)
{
    d.table[i] = x;
    show(what, &d);
}

/* Two words changed. */
static void show_words(const char *what, struct driver d, size_t i, uint64_t x, size_t j, uint64_t y)
{
    d.table[i] = x;
    d.table[j] = y;
    show(what, &d);
}

/* The live count. */
static void show_live(struct driver d)
{
    d.state.live = 257;
    show("live count 257", &d);
    d.state.live = 1;
    show("live count 1, with two records", &d);
    d.state.live = 3;
    show("live count 3, with two records", &d);
}

/* The words that the live count says are not in use. */
static void show_unused(struct driver d)
{
    show_word("the first word after the records not zero", d, 10, 1);
    show_word("the last word not zero", d, 1279, 1);
}

/* The share of guest 0, which holds two records. */
static void show_share(struct driver d)
{
    d.state.settings.shares[0] = 2;
    show("guest 0 holds its share", &d);
    d.state.settings.shares[0] = 1;
    show("guest 0 holds more than its share", &d);
}

/* The two records change places. */
static void show_order(struct driver d)
{
    d.table[1] = 0x3000;
    d.table[2] = 0x3fff;
    d.table[3] = 0x80003000;
    d.table[6] = 0x1000;
    d.table[7] = 0x1fff;
    d.table[8] = 0x80001000;
    show("records not ascending", &d);
}

/* The two records overlap, while records that meet are sound. */
static void show_overlap(struct driver d)
{
    show_word("records that meet", d, 2, 0x2fff);
    show_word("records that overlap", d, 2, 0x3fff);
    show_word("two records with one virt_start", d, 6, 0x1000);
}

/* Step 1 of MAP, broken in the second record. */
static void show_step_1(struct driver d)
{
    show_word("step 1: no such domain", d, 5, 2);
    show_words("step 1: the domain of guest 1", d, 5, 0x100000001, 8, 0x90003000);
    show_words("step 1: no such guest", d, 5, 0x200000001, 8, 0x90003000);
}

/* Steps 2 and 3. */
static void show_steps_2_and_3(struct driver d)
{
    show_word("flags READ and WRITE", d, 9, 3);
    show_word("flags 0", d, 9, 0);
    show_word("step 2: flags 4", d, 9, 4);
    show_word("step 2: flags above 32 bits", d, 9, 0x100000001);
    show_word("step 3: virt_end below virt_start", d, 7, 0x2fff);
}

/* Steps 4 and 5. */
static void show_steps_4_and_5(struct driver d)
{
    show_word("step 4: virt_start not aligned", d, 6, 0x3800);
    show_word("step 4: phys_start not aligned", d, 8, 0x80003800);
    show_word("step 4: phys_start by one address", d, 8, 0x80003001);
    show_word("step 4: virt_end + 1 not aligned", d, 7, 0x3ffe);
    show_words("the input range's last page", d, 6, 0xfffff000, 7, 0xffffffff);
    show_words("step 5: virt_end outside the input range", d, 6, 0xfffff000, 7, 0x100000fff);
}

/* Step 6: by a page, and with a granularity of 1, which lets every phys_start pass step 4, by a byte. */
static void show_step_6(struct driver d)
{
    show_word("the window's last page", d, 8, 0x8ffff000);
    show_words("step 6: past the window by a page", d, 7, 0x4fff, 8, 0x8ffff000);
    show_word("step 6: before the window by a page", d, 8, 0x7ffff000);
    d.state.settings.mask = 0x8000000000000001;
    show_word("granularity 1: phys_start at any address", d, 8, 0x80003001);
    show_word("step 6: past the window by a byte", d, 8, 0x8ffff001);
    show_word("step 6: before the window by a byte", d, 8, 0x7fffffff);
}

/* The lowest bit of a mask of several: the second record's phys_start is a multiple of 0x1000 and not of 0x2000. */
static void show_mask(struct driver d)
{
    d.state.settings.mask = 0x3000;
    show("several mask bits", &d);
    show_word("several mask bits: half of the lowest", d, 8, 0x80003800);
}

void show_records(const struct driver *sound)
{
    show_live(*sound);
    show_unused(*sound);
    show_share(*sound);
    show_order(*sound);
    show_overlap(*sound);
    show_step_1(*sound);
    show_steps_2_and_3(*sound);
    show_steps_4_and_5(*sound);
    show_step_6(*sound);
    show_mask(*sound);
}
