/* What the programs that time calls share: processor time, how many calls fill a share of it, the sheet of an argument, and the
   end on a disagreement. */
#ifndef TIMING_H
#define TIMING_H

#include "engine.h"

#include <stdio.h>
#include <stdlib.h>
#include <string.h>
#include <time.h>

enum { SHARE = 20000000, MOST_SHEET = 64 };

static inline void fail(const char *who, const char *what)
{
    fprintf(stderr, "%s: %s\n", who, what);
    exit(1);
}

/* The processor time of this process in nanoseconds. */
static inline double now(void)
{
    struct timespec t;
    clock_gettime(CLOCK_PROCESS_CPUTIME_ID, &t);
    return 1e9 * (double)t.tv_sec + (double)t.tv_nsec;
}

/* How many calls fill a share, where one took so many nanoseconds. */
static inline int calls_for(double once)
{
    return once >= SHARE ? 1 : (int)(SHARE / once) + 1;
}

/* The bytes of a sheet in hexadecimal, and their number. */
static inline size_t sheet_of(const char *hex, uint8_t *sheet)
{
    size_t len = strlen(hex) / 2;
    if (len > MOST_SHEET) fail("sheet", "too long");
    for (size_t i = 0; i < len; i++) {
        unsigned v;
        if (sscanf(hex + 2 * i, "%2x", &v) != 1) fail("sheet", "not hexadecimal");
        sheet[i] = (uint8_t)v;
    }
    return len;
}

#endif
