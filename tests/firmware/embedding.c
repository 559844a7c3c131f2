/* What an engineer asks before linking the entry: may several threads call it at once, and how much
   stack does it take? Threads plan the same tables side by side, each on a painted stack.

   usage: embedding [SEED [TABLES]] */

#include <pthread.h>
#include <stdio.h>
#include <stdlib.h>

#include "millplan.h"
#include "plain.h"

enum { THREADS = 4, STACK = 256 * 1024, PAINT = 0xC3, MOST_STACK = 1024, LIMIT = 5000 };

static struct plan {
    struct table table;
    uint32_t code;
    uint8_t cores[MOST_TASKS];
} *plans;
static unsigned long tables;

static struct worker {
    pthread_t thread;
    unsigned long first; /* each thread begins at another table */
    unsigned long wrong, depth;
    uint8_t *stack;
} workers[THREADS];

/* How far below `from` the paint is gone. */
static unsigned long painted_depth(const uint8_t *stack, const uint8_t *from)
{
    unsigned long untouched = 0;
    while (stack + untouched < from && stack[untouched] == PAINT)
        untouched++;
    return (unsigned long)(from - stack) - untouched;
}

/* Paints the stack below the caller, without a frame of its own in the way. */
static __attribute__((noinline)) void paint(uint8_t *stack, const uint8_t *from)
{
    for (volatile uint8_t *at = stack; at < from - 256; at++)
        *at = PAINT;
}

static void *plan_all(void *given)
{
    struct worker *w = given;
    uint8_t here;
    paint(w->stack, &here);
    for (unsigned long k = 0; k < tables; k++) {
        const struct plan *p = &plans[(w->first + k) % tables];
        uint8_t cores[MOST_TASKS] = {0};
        const uint32_t code =
            millplan_plan(p->table.bytes, p->table.length, LIMIT, cores, sizeof cores);
        w->wrong += code != p->code || memcmp(cores, p->cores, sizeof cores) != 0;
    }
    w->depth = painted_depth(w->stack, &here);
    return NULL;
}

int main(int argc, char **argv)
{
    state = argc > 1 ? strtoull(argv[1], NULL, 10) : 1;
    tables = argc > 2 ? strtoul(argv[2], NULL, 10) : 20000;
    plans = calloc(tables, sizeof *plans);
    for (unsigned long k = 0; k < tables; k++) {
        plans[k].table = random_table();
        plans[k].code = plain_plan(&plans[k].table, LIMIT, MOST_TASKS, plans[k].cores);
    }

    unsigned long wrong = 0, depth = 0;
    for (int k = 0; k < THREADS; k++) {
        pthread_attr_t attributes;
        pthread_attr_init(&attributes);
        workers[k].stack = aligned_alloc(4096, STACK);
        workers[k].first = (unsigned long)k * tables / THREADS;
        pthread_attr_setstack(&attributes, workers[k].stack, STACK);
        pthread_create(&workers[k].thread, &attributes, plan_all, &workers[k]);
    }
    for (int k = 0; k < THREADS; k++) {
        pthread_join(workers[k].thread, NULL);
        wrong += workers[k].wrong;
        depth = workers[k].depth > depth ? workers[k].depth : depth;
    }
    printf("%d threads, %lu tables each, %lu wrong; %lu bytes of stack\n", THREADS, tables, wrong,
           depth);
    return wrong == 0 && depth <= MOST_STACK ? 0 : 1;
}
