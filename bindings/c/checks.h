/* What the programs of tests count: checks that hold and that don't. Each of them includes this once. */
#ifndef CHECKS_H
#define CHECKS_H

#include <stdio.h>

static unsigned passed, failed;

static void check(int holds, const char *what, const char *file, int line)
{
    if (holds) {
        passed++;
    } else {
        failed++;
        printf("%s:%d: failed: %s\n", file, line, what);
    }
}

#define CHECK(test) check((test), #test, __FILE__, __LINE__)
#define GIVES(code, call) check((call) == (code), #call " is " #code, __FILE__, __LINE__)

/* Prints the counts as a program's last line, and gives its status. */
static int counted(void)
{
    printf("%u passed, %u failed\n", passed, failed);
    return failed == 0 ? 0 : 1;
}

#endif
