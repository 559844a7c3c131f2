/* Calls the firmware entry as the controller does, and checks every byte it may and may not touch.

   usage: caller [SEED [TABLES]] */

#include <stdio.h>
#include <stdlib.h>

#include "millplan.h"
#include "plain.h"

enum { GUARD = 32, FILL = 0xA5 };

#define USUAL_LIMIT 1000000u

static unsigned long checks, failed, seen[128]; /* seen: random tables by code */
static unsigned long ample; /* random tables planned with their ceiling as the limit */

static void check(int holds, const char *what, unsigned long which)
{
    checks++;
    if (!holds) {
        failed++;
        if (failed <= 20)
            printf("FAILED: %s (%lu)\n", what, which);
    }
}

/* One call with guard bytes around the table and around the plan buffer. */

struct reply {
    uint32_t code;
    uint8_t plan[64];
    int clean; /* nothing outside the plan buffer was changed */
};

static int all_fill(const uint8_t *bytes, size_t length)
{
    for (size_t k = 0; k < length; k++)
        if (bytes[k] != FILL)
            return 0;
    return 1;
}

static struct reply call(const struct table *t, uint32_t limit, size_t plan_len)
{
    struct reply r;
    uint8_t lent[GUARD + sizeof t->bytes + GUARD];
    uint8_t buffer[GUARD + sizeof r.plan + GUARD];
    memset(lent, FILL, sizeof lent);
    memset(buffer, FILL, sizeof buffer);
    memcpy(lent + GUARD, t->bytes, t->length);

    r.code = millplan_plan(lent + GUARD, t->length, limit, buffer + GUARD, plan_len);

    r.clean = all_fill(lent, GUARD) && memcmp(lent + GUARD, t->bytes, t->length) == 0
              && all_fill(lent + GUARD + t->length, sizeof lent - GUARD - t->length)
              && all_fill(buffer, GUARD)
              && all_fill(buffer + GUARD + plan_len, sizeof buffer - GUARD - plan_len);
    memcpy(r.plan, buffer + GUARD, sizeof r.plan);
    return r;
}

/* The whole buffer must be: n core numbers, then what was there before. */
static void expect(const char *what, const struct table *t, uint32_t limit, size_t plan_len,
                   uint32_t code, const uint8_t *cores, unsigned n)
{
    struct reply r = call(t, limit, plan_len);
    check(r.code == code, what, r.code);
    check(r.clean, what, plan_len);
    check(memcmp(r.plan, cores, n) == 0, what, plan_len);
    check(all_fill(r.plan + n, sizeof r.plan - n), what, plan_len);
}

static void expect_refused(const char *what, const struct table *t, uint32_t limit,
                           size_t plan_len, uint32_t code)
{
    expect(what, t, limit, plan_len, code, t->bytes, 0);
}

/* A table without a charge, whose tasks may use every core. */
static struct table untied(unsigned n, unsigned m, const uint32_t *periods, const uint32_t *times)
{
    uint8_t core_bytes[MOST_TASKS];
    memset(core_bytes, (1 << m) - 1, sizeof core_bytes);
    return table_of(n, m, 0, periods, times, core_bytes);
}

/* A row with a plan buffer of each length. */
static void check_row(const char *name, const struct table *t, uint32_t limit, uint32_t code,
                      const uint8_t *cores)
{
    const unsigned n = t->bytes[1];
    const size_t lengths[] = {n, n + 1, 16, 17, 64};
    for (size_t j = 0; j < 5; j++)
        expect(name, t, limit, lengths[j], code, cores, n);
    for (size_t shorter = 0; shorter < n; shorter++)
        expect_refused(name, t, limit, shorter, 108);
}

/* The rows of the paper, without a charge and tied tasks. */
static void check_rows(void)
{
    static const struct {
        const char *name;
        unsigned n, m;
        uint32_t periods[5], times[5];
        uint32_t limit, code;
        uint8_t cores[5];
    } rows[] = {
        {"row a", 2, 1, {10, 10}, {3, 7}, USUAL_LIMIT, 0, {1, 1}},
        {"row b", 2, 1, {10, 10}, {3, 8}, USUAL_LIMIT, 1, {0, 1}},
        {"row c", 3, 1, {2, 3, 6}, {1, 1, 1}, USUAL_LIMIT, 0, {1, 1, 1}},
        {"row d", 5, 2, {10, 10, 10, 10, 10}, {5, 5, 4, 3, 3}, USUAL_LIMIT, 0, {1, 1, 2, 2, 2}},
        {"row e", 3, 1, {10, 10, 10}, {7, 6, 4}, 6, 1, {0, 1, 1}},
        {"row f", 3, 1, {10, 10, 10}, {7, 6, 4}, 5, 2, {1, 0, 0}},
        {"row g", 3, 1, {10, 10, 10}, {7, 6, 4}, 0, 2, {0, 0, 0}},
        {"listing", 3, 1, {10, 10, 10}, {7, 6, 4}, USUAL_LIMIT, 1, {0, 1, 1}},
        {"largest limit", 3, 1, {10, 10, 10}, {7, 6, 4}, UINT32_MAX, 1, {0, 1, 1}},
        {"shorter period", 2, 2, {1000, 10}, {600, 6}, USUAL_LIMIT, 0, {2, 1}},
        {"lower number", 2, 2, {10, 10}, {6, 6}, USUAL_LIMIT, 0, {1, 2}},
        {"greater weight", 2, 2, {10, 1000}, {5, 600}, USUAL_LIMIT, 0, {2, 1}},
        {"excess", 5, 2, {10, 10, 10, 10, 10}, {5, 5, 5, 5, 1}, 5, 1, {1, 1, 2, 2, 0}},
        {"empty cores", 5, 4, {10, 10, 10, 10, 10}, {6, 6, 6, 6, 6}, 5, 1, {1, 2, 3, 4, 0}},
        {"excess spent", 5, 2, {10, 10, 10, 10, 10}, {5, 5, 5, 5, 1}, 4, 2, {0, 0, 0, 0, 0}},
    };
    for (size_t k = 0; k < sizeof rows / sizeof rows[0]; k++) {
        const struct table t = untied(rows[k].n, rows[k].m, rows[k].periods, rows[k].times);
        check_row(rows[k].name, &t, rows[k].limit, rows[k].code, rows[k].cores);
    }
}

/* Rows with a charge or with tied tasks. */
static void check_tied_rows(void)
{
    static const struct {
        const char *name;
        unsigned n, m, charge;
        uint32_t periods[3], times[3];
        uint8_t core_bytes[3];
        uint32_t limit, code;
        uint8_t cores[3];
    } rows[] = {
        {"row a, charge 1", 2, 1, 1, {10, 10}, {3, 7}, {1, 1}, 2, 1, {0, 1}},
        {"full with the charge", 2, 1, 9, {20, 20}, {1, 1}, {1, 1}, 2, 0, {1, 1}},
        {"exchanged by the charge", 2, 1, 1, {10, 100}, {5, 54}, {1, 1}, 2, 1, {1, 0}},
        {"each to its own", 2, 2, 0, {4, 4}, {4, 4}, {2, 1}, 2, 0, {2, 1}},
        {"left to the tied", 2, 2, 0, {4, 4}, {4, 4}, {3, 1}, 4, 0, {2, 1}},
        {"left to the tied, spent", 2, 2, 0, {4, 4}, {4, 4}, {3, 1}, 3, 2, {1, 0}},
        {"placed tasks count", 3, 3, 0, {4, 4, 4}, {4, 4, 4}, {3, 6, 1}, 7, 0, {2, 3, 1}},
        {"placed tasks count, spent", 3, 3, 0, {4, 4, 4}, {4, 4, 4}, {3, 6, 1}, 6, 2, {1, 2, 0}},
        {"both or neither", 3, 3, 0, {4, 4, 4}, {1, 1, 4}, {5, 2, 2}, 3, 1, {1, 0, 2}},
        {"charge and tied", 3, 2, 5, {10, 20, 50}, {5, 8, 20}, {2, 3, 1}, 3, 1, {2, 1, 0}},
    };
    for (size_t k = 0; k < sizeof rows / sizeof rows[0]; k++) {
        const struct table t = table_of(rows[k].n, rows[k].m, rows[k].charge, rows[k].periods,
                                        rows[k].times, rows[k].core_bytes);
        check_row(rows[k].name, &t, rows[k].limit, rows[k].code, rows[k].cores);
    }
}

/* Every refusal. Each is tried with room for a plan and with none: 8 comes after the others. */

static void refusal(const char *what, const struct table *t, uint32_t code)
{
    expect_refused(what, t, USUAL_LIMIT, 16, code);
    expect_refused(what, t, 0, 16, code);
    expect_refused(what, t, USUAL_LIMIT, 0, code);
    expect_refused(what, t, 0, 1, code);
}

/* A table with this byte at this place, whole and cut to its first four bytes. */
static void refused_head(const char *what, struct table t, unsigned at, uint8_t byte, uint32_t code)
{
    t.bytes[at] = byte;
    refusal(what, &t, code);
    t.length = 4;
    refusal(what, &t, code);
}

static void check_refusals(void)
{
    const uint32_t tens[16] = {10, 10, 10, 10, 10, 10, 10, 10, 10, 10, 10, 10, 10, 10, 10, 10};
    const uint32_t ones[16] = {1, 1, 1, 1, 1, 1, 1, 1, 1, 1, 1, 1, 1, 1, 1, 1};
    const struct table good = table_of(3, 2, 3, tens, ones, (uint8_t[]){3, 1, 2});
    struct table t;

    for (unsigned length = 0; length < 4; length++)
        for (unsigned first = 0; first < 2; first++) {
            t = good;
            t.length = length;
            t.bytes[0] = (uint8_t)first;
            refusal("1: shorter than 4", &t, 101);
        }
    static const uint8_t firsts[] = {1, 2, 16, 128, 255};
    static const uint8_t counts[] = {0, 17, 18, 128, 255};
    static const uint8_t cores[] = {0, 5, 6, 128, 255};
    for (size_t k = 0; k < 5; k++) {
        refused_head("17: first byte", good, 0, firsts[k], 117);
        refused_head("2: n", good, 1, counts[k], 102);
        refused_head("3: m", good, 2, cores[k], 103);
    }
    for (size_t length = 4; length <= good.length + 8; length++) {
        t = good;
        t.length = length;
        if (length != good.length)
            refusal("4: length", &t, 104);
    }
    static const uint8_t charges[] = {10, 11, 128, 255};
    for (size_t k = 0; k < sizeof charges; k++) {
        t = good;
        t.bytes[3] = charges[k];
        refusal("13: charge", &t, 113);
    }
    static const uint32_t periods[] = {0, 10001, 65546, 16777226, UINT32_MAX};
    static const uint32_t times[] = {0, 11, 266, 65537, UINT32_MAX};
    static const uint32_t costs[] = {8, 9, 10};
    static const uint8_t bytes[] = {0, 4, 7, 16, 128, 131, 255};
    for (unsigned task = 0; task < 3; task++) {
        for (size_t k = 0; k < 5; k++) {
            t = good;
            put_word(period_at(&t, task), periods[k]);
            refusal("5: period", &t, 105);
            put_word(time_at(&t, 3, 0), 0);
            refusal("5: period before time", &t, 105);
            t = good;
            put_word(time_at(&t, 3, task), times[k]);
            refusal("6: time", &t, 106);
        }
        for (size_t k = 0; k < 3; k++) {
            t = good;
            put_word(time_at(&t, 3, task), costs[k]);
            refusal("14: time plus charge", &t, 114);
        }
        for (size_t k = 0; k < sizeof bytes; k++) {
            t = good;
            *core_byte_at(&t, 3, task) = bytes[k];
            refusal("15: core byte", &t, 115);
        }
    }
    t = untied(2, 1, (uint32_t[]){1000, 1001}, ones);
    refusal("7: row k", &t, 107);
    t = untied(2, 1, (uint32_t[]){101, 9901}, ones);
    refusal("7: one above", &t, 107);
    t = untied(3, 1, (uint32_t[]){8069, 56, 9505}, ones);
    refusal("7: small again in 32 bits", &t, 107);

    /* The listing's table in the old form. */
    t = (struct table){.length = 26, .bytes = {3, 1, 10, 0, 0, 0, 10, 0, 0, 0, 10, 0, 0, 0,
                                               7, 0, 0, 0, 6, 0, 0, 0, 4, 0, 0, 0}};
    refusal("17: old form", &t, 117);

    t = untied(2, 1, (uint32_t[]){999, 1001}, ones);
    expect("frame 999,999", &t, USUAL_LIMIT, 2, 0, (uint8_t[]){1, 1}, 2);

    static const uint8_t sixteen[16] = {1, 1, 1, 1, 1, 1, 1, 1, 1, 1, 2, 2, 2, 2, 2, 2};
    t = untied(16, 4, tens, ones);
    expect("sixteen tasks", &t, 16, 16, 0, sixteen, 16);
    expect_refused("8: fifteen bytes for sixteen", &t, USUAL_LIMIT, 15, 108);
    expect_refused("8: before planning", &t, 0, 15, 108);

    check(millplan_plan(good.bytes, good.length, USUAL_LIMIT, NULL, 0) == 108, "8: no buffer", 0);
    check(millplan_plan(good.bytes, good.length, 0, NULL, 0) == 108, "8: no buffer, limit 0", 0);
    check(millplan_plan(NULL, 0, USUAL_LIMIT, NULL, 0) == 101, "1: nothing at all", 0);
}

/* The refusals but 8, in the order of their tests. */
static const uint32_t in_order[] = {101, 117, 102, 103, 104, 113, 105, 106, 114, 115, 107};
enum { REFUSALS = sizeof in_order / sizeof in_order[0] };

/* Gives a table of four tasks one more fault. */
static void spoil(struct table *t, uint32_t code)
{
    switch (code) {
    case 101: t->length = 3; break;
    case 117: t->bytes[0] = 1; break;
    case 102: t->bytes[1] = 17; break;
    case 103: t->bytes[2] = 5; break;
    case 104: t->length++; break;
    case 113: t->bytes[3] = 10; break;
    case 105: put_word(period_at(t, 3), 10001); break;
    case 106: put_word(time_at(t, 4, 0), 0); break;
    case 114: put_word(time_at(t, 4, 1), 1000); break;
    case 115: *core_byte_at(t, 4, 2) = 4; break;
    case 107: put_word(period_at(t, 2), 1001); break;
    }
}

/* Every set of faults at once: the first in the order wins. */
static void check_order(void)
{
    const struct table good = table_of(4, 2, 3, (uint32_t[]){10, 1000, 20, 50},
                                       (uint32_t[]){1, 2, 3, 4}, (uint8_t[]){3, 1, 2, 3});
    expect("no fault", &good, 4, 4, 0, (uint8_t[]){1, 1, 2, 1}, 4);
    for (unsigned set = 1; set < 1u << REFUSALS; set++) {
        struct table t = good;
        unsigned first = REFUSALS;
        for (unsigned k = REFUSALS; k-- > 0;)
            if (set >> k & 1) {
                spoil(&t, in_order[k]);
                first = k;
            }
        refusal("set of faults", &t, in_order[first]);
    }
}

/* The step ceiling: the sum, over k, of the product of the first k factors. The factor for j is the
   smaller of j and m, plus 1, or where some task is tied how many cores the jth task permits, plus
   1. 0 for a table that is refused. */
static uint64_t plain_ceiling(const struct table *t)
{
    struct walk w;
    unsigned order[MOST_TASKS], tied = 0;
    if (plain_start(t, &w, order) != 0)
        return 0;
    for (unsigned k = 0; k < w.n; k++)
        tied |= w.permitted[k] != (1 << w.m) - 1;
    uint64_t sum = 0, product = 1;
    for (unsigned j = 1; j <= w.n; j++) {
        const unsigned cores = (unsigned)__builtin_popcount(w.permitted[j - 1]);
        product *= (tied || j >= w.m ? cores : j) + 1;
        sum += product;
    }
    return sum;
}

/* Random tables, every third with damage: the code and every byte are the plain planner's. */

static void check_random(unsigned long which)
{
    const struct table t = random_table();
    const unsigned n = t.bytes[1] % 17;
    const uint64_t ceiling = plain_ceiling(&t);
    const uint32_t most = ceiling < 20000 ? (uint32_t)ceiling : 20000;
    const uint32_t limits[] = {below(2 * n + 1), below(100), 1 + below(5000), most};
    const uint32_t limit = limits[below(4)];
    const size_t plan_len = below(10) == 0 ? below(n + 1) : n + below(4);
    uint8_t cores[MOST_TASKS] = {0};
    const uint32_t code = plain_plan(&t, limit, plan_len, cores);
    const unsigned written = code >= 100 ? 0 : n;
    seen[code % 128]++;

    const struct reply r = call(&t, limit, plan_len);
    check(r.code == code && r.clean && memcmp(r.plan, cores, written) == 0
              && all_fill(r.plan + written, sizeof r.plan - written),
          "random table", which);
    if (code < 100 && limit >= ceiling) {
        ample++;
        check(r.code != 2, "limit at the ceiling", which);
    }
}

int main(int argc, char **argv)
{
    state = argc > 1 ? strtoull(argv[1], NULL, 10) : 1;
    const unsigned long tables = argc > 2 ? strtoul(argv[2], NULL, 10) : 300000;

    check_rows();
    check_tied_rows();
    check_refusals();
    check_order();
    for (unsigned long k = 1; k <= tables; k++)
        check_random(k);
    for (unsigned code = 0; code <= 2; code++)
        check(tables < 10000 || seen[code] > 0, "code drawn", code);
    for (unsigned k = 0; k < REFUSALS; k++)
        check(tables < 10000 || seen[in_order[k]] > 0, "refusal drawn", in_order[k]);
    check(tables < 10000 || seen[108] > 0, "refusal drawn", 108);
    check(tables < 10000 || ample > tables / 10, "limits at the ceiling drawn", ample);

    printf("%lu checks, %lu failed\n", checks, failed);
    return failed == 0 ? 0 : 1;
}
