/* The core planner of the mill controller, as C firmware calls it. */

#ifndef MILLPLAN_H
#define MILLPLAN_H

#include <stddef.h>
#include <stdint.h>

#ifdef __cplusplus
extern "C" {
#endif

/* What millplan_plan returns. */
enum {
    MILLPLAN_ALL = 0,       /* every task has a core */
    MILLPLAN_SHORT = 1,     /* some tasks are left out; no plan places more load */
    MILLPLAN_SPENT = 2,     /* the step limit ran out: the best plan found so far, if any */

    /* Refused: 100 plus the number of the first cause in this order that holds. */
    MILLPLAN_TOO_SHORT = 101,       /* fewer than 4 table bytes */
    MILLPLAN_FIRST_BYTE = 117,      /* first byte not 0, as in a table of the old form */
    MILLPLAN_TASK_COUNT = 102,      /* number of tasks not 1 to 16 */
    MILLPLAN_CORE_COUNT = 103,      /* number of cores not 1 to 4 */
    MILLPLAN_LENGTH = 104,          /* table length not 4 + 9 * tasks */
    MILLPLAN_CHARGE = 113,          /* switch charge above 9 */
    MILLPLAN_PERIOD = 105,          /* a period not 1 to 10,000 */
    MILLPLAN_BUDGET = 106,          /* a time of 0, or above its period */
    MILLPLAN_COST = 114,            /* a time plus the charge above its period */
    MILLPLAN_AFFINITY = 115,        /* a core byte of 0, or with a bit above the number of cores */
    MILLPLAN_HYPERPERIOD = 107,     /* least common multiple of the periods above 1,000,000 */
    MILLPLAN_BUFFER = 108           /* plan buffer shorter than the number of tasks */
};

/* Plans a table of n tasks on m cores.
 *
 * table      byte 0: always 0; byte 1: n; byte 2: m; byte 3: the switch charge; then n periods and
 *            n times in ticks of 100 microseconds, four bytes each, lowest byte first; then n core
 *            bytes. Only read; may be NULL if it has no bytes.
 *            The charge is the ticks that the board loses whenever a job is taken up: each task
 *            weighs its time plus the charge. A task may use only the cores whose bit is set in its
 *            core byte: bit 0 stands for core 1, up to bit 3 for core 4.
 * table_len  number of table bytes.
 * limit      most steps the search may take; 1,000,000 is usual, and where every task may use every
 *            core always enough for up to 16, 12, 10 and 9 tasks on 1, 2, 3 and 4 cores. A tighter
 *            limit is safe: the answer then says that it ran out. docs/CALLING.md says which limit
 *            never runs out.
 * plan       receives n bytes: for each task, in table order, its core from 1, or 0 if it is
 *            left out. Must not overlap the table; may be NULL if it has no bytes.
 * plan_len   number of bytes at plan, at least n. Bytes after the first n keep their values.
 *
 * On MILLPLAN_ALL, _SHORT and _SPENT the n bytes are written, no core is overloaded, and each task
 * that has a core may use it. A MILLPLAN_SPENT with no plan found leaves out all tasks. On a refusal
 * nothing is written.
 *
 * The archive is for x86-64. It needs memcpy, takes less than 1,024 bytes of stack, has no heap and
 * no writable data, and may be called by several threads at once. The stack figure leaves out what a
 * dynamic loader takes of the caller's stack where it binds memcpy at the first call: about 4,000
 * bytes in all were measured. Where a stack is that small, link statically or with -z now, or call
 * memcpy once before. */
uint32_t millplan_plan(const uint8_t *table, size_t table_len, uint32_t limit,
                       uint8_t *plan, size_t plan_len);

#ifdef __cplusplus
}
#endif

#endif
