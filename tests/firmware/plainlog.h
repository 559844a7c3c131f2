/* The run log of the paper once more, as plain C: what the two entries are held to. */

#ifndef PLAINLOG_H
#define PLAINLOG_H

#include <string.h>

#include "millplan_log.h"

enum { MOST_ANSWERS = 60000, HIGHEST_TASK = 16 };

/* Whether a record begins at this answer. */
static int begins(const uint8_t *answers, size_t k)
{
    return k == 0 || answers[k] != answers[k - 1];
}

/* How many records these answers need. */
static size_t plain_needed(const uint8_t *answers, size_t length)
{
    size_t needed = 0;
    for (size_t k = 0; k < length; k++)
        needed += (size_t)begins(answers, k);
    return needed;
}

static millplan_log plain_write(const uint8_t *answers, size_t length, millplan_run *runs, size_t room)
{
    if (length > MOST_ANSWERS)
        return (millplan_log){23, 0, 0};
    for (size_t k = 0; k < length; k++)
        if (answers[k] > HIGHEST_TASK)
            return (millplan_log){23, (uint32_t)k + 1, 0};
    const size_t needed = plain_needed(answers, length);
    if (room < needed)
        return (millplan_log){24, 0, 0};

    millplan_run *at = runs;
    for (size_t k = 0; k < length; k++)
        if (begins(answers, k))
            *at++ = (millplan_run){answers[k], (uint32_t)k, 1};
        else
            at[-1].length++;
    return (millplan_log){0, 0, (uint32_t)needed};
}

/* The sum of lengths in 64 bits: as many records as the tests have never lead above that. */
static millplan_log plain_expand(const millplan_run *runs, size_t count, uint8_t *answers, size_t length)
{
    uint64_t sum = 0;
    for (size_t k = 0; k < count; k++) {
        const uint64_t with = sum + runs[k].length;
        if (runs[k].task > HIGHEST_TASK || (k > 0 && runs[k].task == runs[k - 1].task) || runs[k].length == 0
            || runs[k].first != sum || with > MOST_ANSWERS)
            return (millplan_log){25, (uint32_t)k + 1, 0};
        sum = with;
    }
    if (length != sum)
        return (millplan_log){25, 0, 0};

    size_t k = 0;
    for (size_t tick = 0; tick < length; tick++) {
        while (runs[k].first + runs[k].length <= tick)
            k++;
        answers[tick] = (uint8_t)runs[k].task;
    }
    return (millplan_log){0, 0, (uint32_t)sum};
}

#endif
