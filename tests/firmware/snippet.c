#include <stdio.h>
#include "millplan.h"

int main(void)
{
    static const uint8_t table[] = {
        0, 2, 2, 1,               /* always 0; 2 tasks, 2 cores, switch charge 1 */
        10, 0, 0, 0, 10, 0, 0, 0, /* periods */
        3, 0, 0, 0, 7, 0, 0, 0,   /* times */
        3, 2                      /* task 1 may use both cores, task 2 only core 2 */
    };
    uint8_t cores[2];

    const uint32_t code = millplan_plan(table, sizeof table, 1000000, cores, sizeof cores);
    if (code >= 100)
        printf("refused: number %u\n", (unsigned)(code - 100));
    else if (code == MILLPLAN_ALL)
        printf("task 1 on core %u, task 2 on core %u\n", cores[0], cores[1]);
    else
        printf("a task has no core\n"); /* short or spent: its entry in cores is 0 */
    return code == MILLPLAN_ALL ? 0 : 1;
}
