/* EXPECT(fact) ends the program, with the fact and its place, where it does not hold. */
#ifndef EXPECT_H
#define EXPECT_H

#include <stdio.h>
#include <stdlib.h>

static inline void expect(int holds, const char *fact, const char *file, int line)
{
    if (!holds) {
        fprintf(stderr, "%s:%d: does not hold: %s\n", file, line, fact);
        exit(1);
    }
}

#define EXPECT(fact) expect((fact) ? 1 : 0, #fact, __FILE__, __LINE__)

#endif
