/* What the benchmarks share: sixteen tasks, the fastest of some rounds, the clock, and words of a table. */

#define _POSIX_C_SOURCE 199309L

#include <stddef.h>
#include <stdint.h>
#include <stdio.h>
#include <stdlib.h>
#include <time.h>

/* How many bytes after a line of the cache the measured function begins. Where code stands changes its
   speed by 4 to 13 %: `bench/run` tries four places. */
#ifndef OFF
#define OFF 0
#endif

/* On what is measured in C: gcc must not make a copy of it for the samples' own numbers, since the
   controller's tables are not known to the compiler. */
#define MEASURED __attribute__((noipa, aligned(64), patchable_function_entry(OFF, OFF)))

enum { TASKS = 16, ROUNDS = 31 };

static double now(void)
{
    struct timespec t;
    clock_gettime(CLOCK_MONOTONIC, &t);
    return (double)t.tv_sec + 1e-9 * (double)t.tv_nsec;
}

/* Whatever else the machine does makes a round slower and none faster. */
static inline double fastest(const double *times, size_t count)
{
    double least = times[0];
    for (size_t k = 1; k < count; k++)
        if (times[k] < least)
            least = times[k];
    return least;
}

static inline void put_word(uint8_t *at, uint32_t word)
{
    for (int k = 0; k < 4; k++)
        at[k] = (uint8_t)(word >> (8 * k));
}
