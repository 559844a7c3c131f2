#include <stdio.h>
#include "millplan_log.h"

int main(void)
{
    static const uint8_t answers[] = {1, 1, 2, 1}; /* the task that ran in each tick, 0 if none */
    millplan_run runs[4];
    uint8_t again[4];

    const millplan_log log = millplan_log_write(answers, sizeof answers, runs, 4);
    if (log.number != 0) {
        printf("refused: number %u, place %u\n", (unsigned)log.number, (unsigned)log.place);
        return 1;
    }
    for (uint32_t k = 0; k < log.count; k++)
        printf("task %u from tick %u on, for %u\n", (unsigned)runs[k].task, (unsigned)runs[k].first,
               (unsigned)runs[k].length);

    /* Exactly the records that were needed, into as many bytes as there were: the same answers. */
    return millplan_log_expand(runs, log.count, again, sizeof again).number == 0 ? 0 : 1;
}
