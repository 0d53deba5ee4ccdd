/* Processor time of this program, and least and median of runs that several implementations make in turn. */
#ifndef TIMING_H
#define TIMING_H

#include <stddef.h>
#include <stdlib.h>
#include <time.h>

struct timing {
    double least, median; /* in seconds */
};

static inline double now(void)
{
    struct timespec t;

    clock_gettime(CLOCK_PROCESS_CPUTIME_ID, &t);
    return (double)t.tv_sec + 1e-9 * (double)t.tv_nsec;
}

/* Whose turn it is, of `count`: each round begins with another one, and every second round runs backwards, since what
 * runs before an implementation tells on its time. */
static inline size_t turn_of(size_t round, size_t i, size_t count)
{
    return (round % 2 == 0 ? round + i : round + count - i) % count;
}

static inline int by_size(const void *a, const void *b)
{
    double x = *(const double *)a, y = *(const double *)b;

    return (x > y) - (x < y);
}

/* It puts the seconds in order. */
static inline struct timing timing_of(double *seconds, size_t rounds)
{
    qsort(seconds, rounds, sizeof(double), by_size);
    return (struct timing){seconds[0], seconds[rounds / 2]};
}

#endif
