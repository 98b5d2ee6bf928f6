/* Processor time of this process, so that other work on the machine does not count, and which of many times of one thing does. */
#ifndef BENCH_CLOCK_H
#define BENCH_CLOCK_H

#include <stdlib.h>
#include <time.h>

/* Nanoseconds. */
static inline double processor_time(void)
{
    struct timespec time;
    clock_gettime(CLOCK_PROCESS_CPUTIME_ID, &time);
    return 1e9 * (double)time.tv_sec + (double)time.tv_nsec;
}

static inline int compare_times(const void *a, const void *b)
{
    double first = *(const double *)a, second = *(const double *)b;
    return (first > second) - (first < second);
}

/* The time that a twentieth of all are below. Not the least: the clock of a busy virtual machine jumps at times, back as well. */
static inline double low_time(double *times, size_t count)
{
    qsort(times, count, sizeof *times, compare_times);
    return times[count / 20];
}

#endif
