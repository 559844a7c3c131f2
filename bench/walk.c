/* Steps per second of the planner's search, beside the same walk in plain C in the same run.
   The ratio is Rattle's speed by C's: 1.0 is as fast as C. `bench/run` builds and runs it.      */

#include "harness.h"

/* The search under test: plans a table, here with charge 0, with a core byte for each task, and
   returns the steps made. */
uint32_t bench_search(const uint8_t *table, size_t table_len, uint32_t charge, const uint8_t *cores,
                      size_t cores_len, uint32_t limit);

/* The walk in plain C. Demands, core bytes and cores are in planning order. */

struct plan {
    uint8_t core[TASKS];
    uint32_t rejected, steps;
    int spent;
};

static unsigned permits(uint8_t byte, unsigned core)
{
    return byte >> (core - 1) & 1u;
}

/* Two cores are twins if each task permits both or neither. */
static uint8_t are_twins(const uint8_t *allowed, unsigned n, unsigned core, unsigned other)
{
    for (unsigned k = 0; k < n; k++)
        if (permits(allowed[k], core) != permits(allowed[k], other))
            return 0;
    return 1;
}

/* Whether a core below this one is empty and its twin. */
static int lower_twin_empty(const uint32_t *load, const uint8_t *twin, unsigned core)
{
    for (unsigned c = 1; c < core; c++)
        if (load[c] == 0 && twin[c])
            return 1;
    return 0;
}

static MEASURED struct plan
walk(const uint32_t *demand, const uint8_t *allowed, unsigned n, unsigned m, uint32_t hyperperiod,
     uint32_t limit)
{
    uint32_t total = 0;
    for (unsigned k = 0; k < n; k++)
        total += demand[k];
    uint8_t twin[5][5] = {0};
    for (unsigned core = 2; core <= m; core++)
        for (unsigned lower = 1; lower < core; lower++)
            twin[core][lower] = are_twins(allowed, n, core, lower);
    const uint32_t excess = total > m * hyperperiod ? total - m * hyperperiod : 0;
    uint32_t mark = total + 1;

    struct plan best = {.rejected = total};
    uint8_t path[TASKS];
    uint32_t load[5] = {0}; /* load[0] is what is rejected so far */
    unsigned depth = 0, turn = 1; /* turns 1 to m are the cores, turn m + 1 rejects */

    for (;;) {
        /* The next turn at this depth that may be entered. */
        const uint32_t own = demand[depth];
        unsigned choice;
        while (turn <= m && (!permits(allowed[depth], turn) || load[turn] + own > hyperperiod
                             || load[0] >= mark || excess >= mark
                             || (load[turn] == 0 && lower_twin_empty(load, twin[turn], turn))))
            turn++;
        if (turn <= m) {
            choice = turn;
        } else if (turn == m + 1 && load[0] + own < mark && excess < mark) {
            choice = 0;
        } else if (depth > 0) {
            depth--;
            load[path[depth]] -= demand[depth];
            turn = path[depth] == 0 ? m + 2 : path[depth] + 1u;
            continue;
        } else {
            return best;
        }

        if (best.steps == limit) {
            best.spent = 1;
            return best;
        }
        best.steps++;
        path[depth] = (uint8_t)choice;
        if (depth + 1 < n) {
            load[choice] += own;
            depth++;
            turn = 1;
        } else {
            mark = best.rejected = load[0] + (choice == 0 ? own : 0);
            for (unsigned k = 0; k < n; k++)
                best.core[k] = path[k];
            turn++;
        }
    }
}

/* The harness. In every sample all periods are equal and times fall, so that the hyperperiod is
   the period, demands are times, and planning order is table order. Where the core bytes are 0
   every core is permitted; samples with tied tasks come last. */

static const struct sample {
    const char *name;
    uint32_t cores, limit, period, times[TASKS];
    uint8_t allowed[TASKS];
} samples[] = {
    {"load above three cores", 3, UINT32_MAX, 10000,
     {2989, 2912, 2694, 2693, 2565, 2556, 2519, 2347,
      2210, 2194, 2040, 2018, 2003, 1997, 1886, 1879}, {0}},
    {"the same, limit reached", 3, 2000000, 10000,
     {2989, 2912, 2694, 2693, 2565, 2556, 2519, 2347,
      2210, 2194, 2040, 2018, 2003, 1997, 1886, 1879}, {0}},
    {"many equal tasks", 3, UINT32_MAX, 100,
     {25, 25, 25, 23, 23, 23, 23, 23, 23, 22, 22, 21, 21, 20, 19, 18}, {0}},
    {"load within three cores", 3, UINT32_MAX, 1000,
     {197, 197, 190, 186, 186, 184, 184, 182, 180, 176, 173, 173, 173, 172, 172, 171}, {0}},
    {"load above four cores", 4, UINT32_MAX, 10000,
     {2750, 2719, 2688, 2657, 2626, 2595, 2564, 2533,
      2502, 2471, 2440, 2409, 2378, 2347, 2316, 2285}, {0}},
    {"a quarter of four cores each", 4, UINT32_MAX, 10000,
     {2660, 2648, 2636, 2624, 2612, 2600, 2588, 2576,
      2564, 2552, 2540, 2528, 2516, 2504, 2492, 2480}, {0}},
    /* The first and the last of these tables once more, with tied tasks. */
    {"unit on core 1, bus on core 2", 3, UINT32_MAX, 10000,
     {2989, 2912, 2694, 2693, 2565, 2556, 2519, 2347,
      2210, 2194, 2040, 2018, 2003, 1997, 1886, 1879},
     {7, 7, 1, 7, 7, 7, 7, 7, 7, 2, 7, 7, 7, 7, 7, 7}},
    {"half of the tasks tied", 4, UINT32_MAX, 10000,
     {2660, 2648, 2636, 2624, 2612, 2600, 2588, 2576,
      2564, 2552, 2540, 2528, 2516, 2504, 2492, 2480},
     {15, 1, 15, 2, 15, 4, 15, 8, 15, 1, 15, 2, 15, 4, 15, 8}},
    {"no two cores are twins", 4, UINT32_MAX, 10000,
     {2660, 2648, 2636, 2624, 2612, 2600, 2588, 2576,
      2564, 2552, 2540, 2528, 2516, 2504, 2492, 2480},
     {3, 6, 12, 9, 15, 3, 6, 12, 9, 15, 3, 6, 12, 9, 15, 15}},
    {"two pairs of twins", 4, UINT32_MAX, 10000,
     {2660, 2648, 2636, 2624, 2612, 2600, 2588, 2576,
      2564, 2552, 2540, 2528, 2516, 2504, 2492, 2480},
     {3, 12, 15, 15, 3, 12, 15, 15, 3, 12, 15, 15, 3, 12, 15, 15}},
};

static int is_tied(const struct sample *sample)
{
    return sample->allowed[0] != 0;
}

struct figures {
    double steps, plain, tested; /* the steps, and the seconds of each side */
};

static void print_row(const char *name, struct figures f)
{
    printf("%-29s %10.0f %14.0f %14.0f %8.2f\n", name, f.steps, f.steps / f.plain, f.steps / f.tested,
           f.plain / f.tested);
}

/* Both sides on one sample, in turn; ends the program where their steps differ. */
static struct figures measure(const struct sample *sample)
{
    uint8_t table[2 + 8 * TASKS] = {TASKS, (uint8_t)sample->cores}, allowed[TASKS];
    for (int k = 0; k < TASKS; k++) {
        put_word(table + 2 + 4 * k, sample->period);
        put_word(table + 2 + 4 * (TASKS + k), sample->times[k]);
        allowed[k] = is_tied(sample) ? sample->allowed[k] : (uint8_t)((1u << sample->cores) - 1);
    }

    double plain[ROUNDS], tested[ROUNDS];
    uint32_t steps = 0;
    for (int round = 0; round < ROUNDS; round++) {
        const double start = now();
        steps = walk(sample->times, allowed, TASKS, sample->cores, sample->period, sample->limit).steps;
        const double middle = now();
        const uint32_t theirs =
            bench_search(table, sizeof table, 0, allowed, sizeof allowed, sample->limit);
        tested[round] = now() - middle;
        plain[round] = middle - start;
        if (theirs != steps) {
            printf("steps differ: %u and %u\n", steps, theirs);
            exit(1);
        }
    }
    return (struct figures){steps, fastest(plain, ROUNDS), fastest(tested, ROUNDS)};
}

int main(void)
{
    const size_t count = sizeof samples / sizeof samples[0];
    struct figures together = {0};

    printf("%-29s %10s %14s %14s %8s\n", "table", "steps", "C steps/s", "Rattle steps/s", "ratio");
    for (size_t s = 0; s < count; s++) {
        const struct figures f = measure(&samples[s]);
        print_row(samples[s].name, f);
        together.steps += f.steps;
        together.plain += f.plain;
        together.tested += f.tested;

        /* After the last sample of a kind: all of that kind. */
        const int tied = is_tied(&samples[s]);
        if (s + 1 == count || tied != is_tied(&samples[s + 1])) {
            print_row(tied ? "together, tied tasks" : "together", together);
            together = (struct figures){0};
        }
    }
    return 0;
}
