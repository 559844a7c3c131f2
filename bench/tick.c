/* Nanoseconds per tick of the core runner, beside the same tick in plain C in the same run.
   The ratio is Rattle's speed by C's: 1.0 is as fast as C. `bench/run` builds and runs it;
   `bench/against` also puts an earlier version's runner beside the two.                         */

#include "harness.h"
#include <alloca.h>

/* The runner under test: makes a fresh core 1 with all tasks of the table on it, on a board with
   this charge, gives it full requests (the largest number, each) for so many ticks, and returns
   the sum of the tasks run and of the late tasks, so that no part of an answer can be left out.
   An earlier version may know no charge.                                                        */
uint64_t bench_tick(const uint8_t *table, size_t table_len, uint32_t charge, uint32_t ticks);
#if defined BEFORE && BEFORE == 1
uint64_t before_tick(const uint8_t *table, size_t table_len, uint32_t ticks);
#elif defined BEFORE
uint64_t before_tick(const uint8_t *table, size_t table_len, uint32_t charge, uint32_t ticks);
#endif

/* A stack may stand at 256 places of a page, and at some of them a tick takes longer: each side is
   measured at all of them, and its figure is the mean. */
enum { TICKS = 10000, PLACES = 256, APART = 16, TRIES = 9 };

/* The tick in plain C. */

struct slot {
    uint32_t period, budget, until, remaining;
};

struct core {
    struct slot slots[TASKS];
    uint32_t charge;
};

struct answer {
    uint8_t number, place, run, late;
};

/* Budget and charge of a record from elsewhere may come to more than 32 bits. */
static int cannot_be(uint32_t charge, const struct slot *s)
{
    const uint64_t cost = (uint64_t)s->budget + charge;
    if (s->period == 0)
        return s->budget != 0 || s->until != 0 || s->remaining != 0;
    return s->period > 10000 || s->budget == 0 || cost > s->period || s->until >= s->period
           || s->remaining > cost;
}

static MEASURED struct answer
tick(struct core *core, const uint32_t request[TASKS])
{
    struct answer answer = {0, 0, 0, 0};
    const uint32_t charge = core->charge;
    if (charge > 9) {
        answer.number = 12;
        return answer;
    }
    for (int k = 0; k < TASKS; k++)
        if (cannot_be(charge, &core->slots[k])) {
            answer.number = 12;
            answer.place = (uint8_t)(k + 1);
            return answer;
        }

    /* Release, choose and count down in one pass: the choice looks at what is left after release,
       and counting down every slot does not change who is first. */
    struct slot *chosen = NULL;
    for (int k = 0; k < TASKS; k++) {
        struct slot *s = &core->slots[k];
        if (s->period == 0)
            continue;
        if (s->until == 0) {
            if (s->remaining > 0 && answer.late == 0)
                answer.late = (uint8_t)(k + 1);
            s->remaining = request[k] == 0 ? 0 : (request[k] < s->budget ? request[k] : s->budget) + charge;
            s->until = s->period;
        }
        s->until--;
        if (s->remaining > 0 && (chosen == NULL || s->until < chosen->until))
            chosen = s;
    }
    if (chosen != NULL) {
        chosen->remaining--;
        answer.run = (uint8_t)(chosen - core->slots + 1);
    }
    return answer;
}

static uint32_t run_ticks(uint32_t charge, const uint32_t *periods, const uint32_t *budgets, uint32_t ticks)
{
    struct core core = {.charge = charge};
    uint32_t request[TASKS], sum = 0;
    for (int k = 0; k < TASKS; k++) {
        core.slots[k] = (struct slot){periods[k], budgets[k], 0, 0};
        request[k] = UINT32_MAX;
    }
    for (uint32_t k = 0; k < ticks; k++) {
        const struct answer answer = tick(&core, request);
        sum += (uint32_t)answer.run + answer.late;
    }
    return sum;
}

/* The harness. Each sample has sixteen tasks whose load, with the charge, is one core at most;
   those without a charge come first. */

static const struct sample {
    const char *name;
    uint32_t charge;
    uint32_t periods[TASKS], budgets[TASKS];
} samples[] = {
    {"equal periods, full", 0,
     {16, 16, 16, 16, 16, 16, 16, 16, 16, 16, 16, 16, 16, 16, 16, 16},
     {1, 1, 1, 1, 1, 1, 1, 1, 1, 1, 1, 1, 1, 1, 1, 1}},
    {"mixed periods, full", 0,
     {10, 20, 20, 40, 50, 80, 100, 100, 200, 250, 400, 500, 1000, 2000, 5000, 10000},
     {2, 2, 1, 4, 5, 4, 6, 5, 10, 10, 10, 10, 20, 40, 50, 1050}},
    {"mixed periods, mostly idle", 0,
     {10, 20, 20, 40, 50, 80, 100, 100, 200, 250, 400, 500, 1000, 2000, 5000, 10000},
     {1, 1, 1, 1, 1, 1, 1, 1, 1, 1, 1, 1, 1, 1, 1, 1}},
    {"equal periods, charge 1", 1,
     {32, 32, 32, 32, 32, 32, 32, 32, 32, 32, 32, 32, 32, 32, 32, 32},
     {1, 1, 1, 1, 1, 1, 1, 1, 1, 1, 1, 1, 1, 1, 1, 1}},
    {"mixed periods, charge 2", 2,
     {10, 20, 20, 40, 50, 80, 100, 100, 200, 250, 400, 500, 1000, 2000, 5000, 10000},
     {1, 1, 1, 1, 1, 1, 1, 1, 1, 1, 1, 1, 1, 1, 1, 1}},
};

/* Those measured: plain C, Rattle, and Rattle as it was where that is asked for. */
enum { PLAIN, TESTED, EARLIER, SIDES };

static uint64_t run_side(int side, const struct sample *sample, const uint8_t *table, size_t length)
{
    switch (side) {
    case PLAIN:
        return run_ticks(sample->charge, sample->periods, sample->budgets, TICKS);
    case TESTED:
        return bench_tick(table, length, sample->charge, TICKS);
    default:
#if defined BEFORE && BEFORE == 1
        return before_tick(table, length, TICKS);
#elif defined BEFORE
        return before_tick(table, length, sample->charge, TICKS);
#else
        return 0;
#endif
    }
}

/* One side with the stack moved down by so many bytes: its sum, and its time in seconds. */
static __attribute__((noinline)) uint64_t
at(size_t down, int side, const struct sample *sample, const uint8_t *table, size_t length, double *time)
{
    volatile uint8_t *below = alloca(down + APART);
    below[0] = 0;
    const double start = now();
    const uint64_t sum = run_side(side, sample, table, length);
    *time = now() - start;
    return sum;
}

static double nanoseconds(double time)
{
    return time / TICKS * 1e9;
}

int main(void)
{
    size_t count = sizeof samples / sizeof samples[0];
#if defined BEFORE && BEFORE == 1
    count = 3;
#endif
#ifdef BEFORE
    const int sides = SIDES;
#else
    const int sides = EARLIER;
#endif
    double together[SIDES] = {0}, slowest = 0;

    printf("%-28s %10s %14s %8s %14s%s\n", "table", "C ns/tick", "Rattle ns/tick", "ratio", "slowest place",
           sides == SIDES ? "  before, ns    ratio" : "");
    for (size_t s = 0; s <= count; s++) {
        double time[SIDES] = {0}, most = 0;
        if (s == count) {
            for (int side = 0; side < sides; side++)
                time[side] = together[side] / (double)count;
            most = slowest;
        } else {
            uint8_t table[2 + 8 * TASKS] = {TASKS, 1};
            for (int k = 0; k < TASKS; k++) {
                put_word(table + 2 + 4 * k, samples[s].periods[k]);
                put_word(table + 2 + 4 * (TASKS + k), samples[s].budgets[k]);
            }

            /* Sides and places take turns. */
            static double tries[SIDES][PLACES][TRIES];
            for (int try = 0; try < TRIES; try++)
                for (size_t place = 0; place < PLACES; place++) {
                    uint64_t sums[SIDES];
                    for (int side = 0; side < sides; side++) {
                        sums[side] = at(place * APART, side, &samples[s], table, sizeof table,
                                        &tries[side][place][try]);
                        if (sums[side] != sums[PLAIN]) {
                            printf("sums of tasks named differ: %llu and %llu\n",
                                   (unsigned long long)sums[PLAIN], (unsigned long long)sums[side]);
                            return 1;
                        }
                    }
                }
            for (int side = 0; side < sides; side++) {
                for (size_t place = 0; place < PLACES; place++) {
                    const double least = fastest(tries[side][place], TRIES);
                    time[side] += least / PLACES;
                    if (side == TESTED && least > most)
                        most = least;
                }
                together[side] += time[side];
            }
            slowest = most > slowest ? most : slowest;
        }
        printf("%-28s %10.1f %14.1f %8.2f %14.1f", s == count ? "together" : samples[s].name,
               nanoseconds(time[PLAIN]), nanoseconds(time[TESTED]), time[PLAIN] / time[TESTED],
               nanoseconds(most));
        if (sides == SIDES)
            printf("  %10.1f %8.2f", nanoseconds(time[EARLIER]), time[PLAIN] / time[EARLIER]);
        printf("\n");
    }
    return 0;
}
