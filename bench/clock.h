/* How long a call takes. */
#ifndef CLOCK_H
#define CLOCK_H

#include <time.h>

static double nanoseconds(void (*run)(void))
{
    struct timespec a, b;
    clock_gettime(CLOCK_MONOTONIC, &a);
    run();
    clock_gettime(CLOCK_MONOTONIC, &b);
    return (double)(b.tv_sec - a.tv_sec) * 1e9 + (double)(b.tv_nsec - a.tv_nsec);
}

#endif
