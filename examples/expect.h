/* What the programs that try each call are made of: a step says what is not so, and answers 1 there. */
#ifndef EXPECT_H
#define EXPECT_H

#include <stdio.h>

#define EXPECT(fact)                                                           \
    do {                                                                       \
        if (!(fact)) {                                                         \
            fprintf(stderr, "%s:%d: not so: %s\n", __FILE__, __LINE__, #fact); \
            return 1;                                                          \
        }                                                                      \
    } while (0)

#define TRY(step)           \
    do {                    \
        if (step) return 1; \
    } while (0)

#endif
