/* Memory to lend: it ends where a page begins that may not be touched, and known bytes stand before it. A read or write
   past its end stops the program, and a write before its start is found. */
#ifndef LENT_H
#define LENT_H

#include <stddef.h>
#include <stdint.h>

struct lent {
    uint8_t *end;
    size_t room;
};

/* Room for so many bytes. */
struct lent lent_room(size_t bytes);

/* The last bytes of the room, with the known bytes put before them. */
void *lent_part(struct lent l, size_t bytes);

/* The bytes before the part that was lent are as they were put. */
void lent_check(struct lent l, size_t bytes);

#endif
