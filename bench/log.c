/* Microseconds of writing and of expanding a run log of 60,000 answers, beside the same in plain C in
   the same run. The ratio is Rattle's speed by C's: 1.0 is as fast as C. `bench/run` builds and runs
   it.                                                                                              */

#include "harness.h"
#include "../include/millplan_log.h"
#include <string.h>

/* Calls of a round; ticks of a whole log. */
enum { CALLS = 10, MOST = 60000 };

/* The two calls in plain C: all tests first, so that nothing is written on a refusal. */

static MEASURED millplan_log
write_plain(const uint8_t *answers, size_t length, millplan_run *runs, size_t room)
{
    if (length > MOST)
        return (millplan_log){23, 0, 0};
    size_t needed = 0;
    for (size_t k = 0; k < length; k++) {
        if (answers[k] > 16)
            return (millplan_log){23, (uint32_t)k + 1, 0};
        needed += k == 0 || answers[k] != answers[k - 1];
    }
    if (room < needed)
        return (millplan_log){24, 0, 0};
    for (size_t first = 0, end; first < length; first = end) {
        for (end = first + 1; end < length && answers[end] == answers[first]; end++)
            ;
        *runs++ = (millplan_run){answers[first], (uint32_t)first, (uint32_t)(end - first)};
    }
    return (millplan_log){0, 0, (uint32_t)needed};
}

static MEASURED millplan_log
expand_plain(const millplan_run *runs, size_t count, uint8_t *answers, size_t length)
{
    uint32_t sum = 0, before = 17; /* no task */
    for (size_t k = 0; k < count; k++) {
        const millplan_run run = runs[k];
        if (run.task > 16 || run.task == before || run.length == 0 || run.first != sum || run.length > MOST - sum)
            return (millplan_log){25, (uint32_t)k + 1, 0};
        before = run.task;
        sum += run.length;
    }
    if (length != sum)
        return (millplan_log){25, 0, 0};
    for (size_t k = 0; k < count; k++)
        memset(answers + runs[k].first, (int)runs[k].task, runs[k].length);
    return (millplan_log){0, 0, sum};
}

/* The harness. Each sample has 60,000 answers, in runs of so many to so many ticks. */

static const struct sample {
    const char *name;
    uint32_t least, most;
} samples[] = {
    {"100 runs", 600, 600},
    {"runs of 1 to 20 ticks", 1, 20},
    {"alternating", 1, 1},
};

static uint8_t answers[MOST], expanded[2][MOST];
static millplan_run runs[2][MOST];

/* Answers of one sample: neighbouring runs have different tasks. */
static void draw(const struct sample *sample)
{
    uint32_t word = 1, task = 0;
    for (size_t at = 0; at < MOST;) {
        word = word * 1664525u + 1013904223u;
        task = (task + 1 + (word >> 16) % 16) % 17;
        const uint32_t length = sample->least + (word >> 8) % (sample->most - sample->least + 1);
        for (uint32_t k = 0; k < length && at < MOST; k++)
            answers[at++] = (uint8_t)task;
    }
}

enum { PLAIN, TESTED, SIDES };

/* One call of one side; writing leaves its records to expanding. */
static millplan_log call(int side, int expanding, size_t count)
{
    if (expanding)
        return side == PLAIN ? expand_plain(runs[side], count, expanded[side], MOST)
                             : millplan_log_expand(runs[side], count, expanded[side], MOST);
    return side == PLAIN ? write_plain(answers, MOST, runs[side], MOST)
                         : millplan_log_write(answers, MOST, runs[side], MOST);
}

/* Both sides of one call, in turn; ends the program where they differ. Returns how many records or
   answers there are. */
static size_t measure(const char *name, int expanding, size_t count)
{
    static double rounds[SIDES][ROUNDS];
    millplan_log logs[SIDES] = {{0, 0, 0}};
    for (int round = 0; round < ROUNDS; round++)
        for (int side = 0; side < SIDES; side++) {
            const double start = now();
            for (int k = 0; k < CALLS; k++)
                logs[side] = call(side, expanding, count);
            rounds[side][round] = (now() - start) / CALLS;
        }

    const size_t found = logs[PLAIN].count;
    for (int side = 0; side < SIDES; side++)
        if (logs[side].number != 0 || logs[side].count != found
            || memcmp(runs[side], runs[PLAIN], (expanding ? count : found) * sizeof **runs) != 0
            || (expanding && memcmp(expanded[side], answers, MOST) != 0)) {
            printf("logs differ: %s\n", name);
            exit(1);
        }
    const double plain = fastest(rounds[PLAIN], ROUNDS), tested = fastest(rounds[TESTED], ROUNDS);
    printf("%-10s %-24s %8zu %8.2f %10.2f %8.2f\n", expanding ? "expanding" : "writing", name,
           expanding ? count : found, plain * 1e6, tested * 1e6, plain / tested);
    return found;
}

int main(void)
{
    printf("%-10s %-24s %8s %8s %10s %8s\n", "call", "60,000 answers", "records", "C us", "Rattle us", "ratio");
    for (size_t k = 0; k < sizeof samples / sizeof *samples; k++) {
        draw(&samples[k]);
        const size_t count = measure(samples[k].name, 0, 0);
        measure(samples[k].name, 1, count);
    }
    return 0;
}
