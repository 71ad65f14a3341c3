/* What the tests in C share: each expectation is printed and counted; the last line is 'N passed, M failed'. */
#ifndef EXPECT_H
#define EXPECT_H

#include <stdio.h>

static int passed;
static int failed;

static void expect(int holds, const char *what)
{
    if (holds) {
        passed++;
    } else {
        failed++;
    }
    printf("%s: %s\n", holds ? "ok" : "FAILED", what);
}

/* The count, and the program's status. */
static int expected(void)
{
    printf("%d passed, %d failed\n", passed, failed);
    return failed == 0 ? 0 : 1;
}

#endif
