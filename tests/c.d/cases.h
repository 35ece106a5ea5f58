/* A line for each case, and how many there were. */
#ifndef CASES_H
#define CASES_H

#include <stdbool.h>
#include <stdio.h>

static unsigned cases_passed, cases_failed;

static inline void expect(bool holds, const char *what)
{
    if (holds) {
        cases_passed++;
        printf("ok: %s\n", what);
    } else {
        cases_failed++;
        printf("FAILED: %s\n", what);
    }
}

static inline int cases_end(void)
{
    printf("%u passed, %u failed\n", cases_passed, cases_failed);
    return cases_failed > 0 || cases_passed == 0;
}

#endif
