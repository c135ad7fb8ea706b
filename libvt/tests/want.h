/* What the tests share: a line on standard output for each thing that doesn't hold, and the status at the end. */
#ifndef WANT_H
#define WANT_H

#include <stdbool.h>
#include <stdint.h>
#include <stdio.h>
#include <stdlib.h>
#include <string.h>
#include <vt.h>

static unsigned long held, failed;

#define WANT(condition) want((condition), #condition, __FILE__, __LINE__)

static inline bool want(bool is_so, const char *what, const char *file, int line)
{
    is_so ? held++ : failed++;
    if (!is_so)
        printf("%s:%d: not so: %s\n", file, line, what);
    return is_so;
}

static inline int ended(void)
{
    printf("%lu held, %lu failed\n", held, failed);
    return failed > 0 || held == 0;
}

#endif
