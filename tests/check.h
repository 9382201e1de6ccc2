/* Not proved: checks that are counted, for the C tests, in the common part of C99 and C++. A test ends with counted(). */
#ifndef CHECK_H
#define CHECK_H

#include <stdio.h>

static unsigned passed, failed;

#define CHECK(holds) check((holds) != 0, #holds, __FILE__, __LINE__)
static void check(int holds, const char *what, const char *file, int line)
{
    if (holds) {
        passed++;
    } else {
        failed++;
        printf("%s:%d: %s\n", file, line, what);
    }
}

/* The last line, and the status. */
static int counted(void)
{
    printf("%u passed, %u failed\n", passed, failed);
    return failed != 0;
}

#endif
