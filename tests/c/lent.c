/* Memory to lend, between two pages that may not be touched. */
#define _DEFAULT_SOURCE
#include "lent.h"

#include <string.h>
#include <sys/mman.h>
#include <unistd.h>

#include "expect.h"

#define GUARD 64
#define GUARD_BYTE 0x5a

struct lent lent_room(size_t bytes)
{
    size_t page = (size_t)sysconf(_SC_PAGESIZE);
    size_t room = (bytes + GUARD + page - 1) / page * page;
    uint8_t *base = mmap(NULL, room + 2 * page, PROT_NONE, MAP_PRIVATE | MAP_ANONYMOUS, -1, 0);
    EXPECT(base != MAP_FAILED);
    EXPECT(mprotect(base + page, room, PROT_READ | PROT_WRITE) == 0);
    struct lent l = {base + page + room, room};
    return l;
}

void *lent_part(struct lent l, size_t bytes)
{
    EXPECT(bytes + GUARD <= l.room);
    memset(l.end - bytes - GUARD, GUARD_BYTE, GUARD);
    return l.end - bytes;
}

void lent_check(struct lent l, size_t bytes)
{
    static uint8_t guard[GUARD];
    memset(guard, GUARD_BYTE, GUARD);
    EXPECT(memcmp(l.end - bytes - GUARD, guard, GUARD) == 0);
}
