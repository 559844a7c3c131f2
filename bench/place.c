/* Steps per second of the planner's search at each of the 256 places of a page at which a stack may
   stand: what the search keeps on the stack must not fall where the machine is slow. `bench/run`
   builds and runs it.                                                                              */

#include "harness.h"
#include <alloca.h>

uint32_t bench_search(const uint8_t *table, size_t table_len, uint32_t charge, const uint8_t *cores,
                      size_t cores_len, uint32_t limit);

enum { PLACES = 256, APART = 16, LIMIT = 200000 };

/* Sixteen tasks that three cores cannot hold, all of one period. */
static const uint32_t times[TASKS] = {2989, 2912, 2694, 2693, 2565, 2556, 2519, 2347,
                                      2210, 2194, 2040, 2018, 2003, 1997, 1886, 1879};

/* Each may use every core. */
static const uint8_t cores[TASKS] = {7, 7, 7, 7, 7, 7, 7, 7, 7, 7, 7, 7, 7, 7, 7, 7};

/* The search with the stack moved down by so many bytes, in seconds. */
static __attribute__((noinline)) double at(size_t down, const uint8_t *table, size_t length)
{
    volatile uint8_t *below = alloca(down + APART);
    below[0] = 0;
    const double start = now();
    bench_search(table, length, 0, cores, sizeof cores, LIMIT);
    return now() - start;
}

int main(void)
{
    uint8_t table[2 + 8 * TASKS] = {TASKS, 3};
    for (int k = 0; k < TASKS; k++) {
        put_word(table + 2 + 4 * k, 10000);
        put_word(table + 2 + 4 * (TASKS + k), times[k]);
    }

    /* The places take turns, so that what else the machine does falls on no one of them alone. */
    static double rounds[PLACES][ROUNDS];
    for (int round = 0; round < ROUNDS; round++)
        for (size_t k = 0; k < PLACES; k++)
            rounds[k][round] = at(k * APART, table, sizeof table);

    double least = 0, most = 0, sum = 0;
    for (size_t k = 0; k < PLACES; k++) {
        const double time = fastest(rounds[k], ROUNDS);
        least = k == 0 || time < least ? time : least;
        most = time > most ? time : most;
        sum += time;
    }
    printf("slowest place %.0f M steps/s, mean %.0f M, fastest %.0f M\n", LIMIT / most / 1e6,
           LIMIT * (double)PLACES / sum / 1e6, LIMIT / least / 1e6);
    return 0;
}
