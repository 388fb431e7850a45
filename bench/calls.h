/* What the programs here share that time the library's functions for C: the clock, and an end at the first call that is not carried out. */
#include <stdint.h>
#include <stdio.h>
#include <stdlib.h>
#include <time.h>
#include "twynarvel.h"

static volatile uint32_t sink; /* so that no call can be left out */

static void fail(const char *what, unsigned long number)
{
    printf("bench: %s (%lu)\n", what, number);
    exit(1);
}

static void done(const char *call, uint32_t status)
{
    if (status != TWYNARVEL_DONE)
        fail(call, status);
}

static double nanoseconds(void)
{
    struct timespec t;
    clock_gettime(CLOCK_MONOTONIC, &t);
    return 1e9 * (double)t.tv_sec + (double)t.tv_nsec;
}
