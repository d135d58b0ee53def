/* Counts what is expected, and says which expectation failed and where. */
#ifndef EXPECT_H
#define EXPECT_H

#include <stdio.h>

static unsigned long expectations, failures;

/* Counts one expectation; answers whether it holds. */
static inline int expect_at(const char *file, int line, int holds, const char *what)
{
    expectations++;
    if (!holds) {
        failures++;
        printf("%s:%d: failed: %s\n", file, line, what);
    }
    return holds;
}

#define EXPECT(condition) expect_at(__FILE__, __LINE__, (condition) ? 1 : 0, #condition)

/* Prints the last line; answers the exit status. */
static inline int expect_end(void)
{
    if (failures != 0) {
        printf("%lu of %lu checks failed\n", failures, expectations);
        return 1;
    }
    printf("%lu checks passed\n", expectations);
    return 0;
}

#endif
