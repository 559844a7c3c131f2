/* Calls the two entries of the run log, and checks every record and byte they may and may not touch.

   usage: log [SEED [LOGS]] */

#include <stdio.h>
#include <stdlib.h>

#include "plainlog.h"
#include "random.h"

enum { GUARD = 32, FILL = 0xA5, SMALL = 80, LARGE = MOST_ANSWERS + 100 };

static unsigned long checks, failed, seen[32]; /* seen: random calls by number */

static void check(int holds, const char *what, unsigned long which)
{
    checks++;
    if (!holds) {
        failed++;
        if (failed <= 20)
            printf("FAILED: %s (%lu)\n", what, which);
    }
}

/* Answers and records, between guards: what the entries get, and the same for the plain calls. Of
   both rows `extent` entries are in use. */

static struct rows {
    uint8_t bytes[GUARD + LARGE + GUARD];
    millplan_run runs[GUARD + LARGE + GUARD];
} given, expected;

static uint8_t *const bytes = given.bytes + GUARD;
static millplan_run *const runs = given.runs + GUARD;
static size_t extent;

static void fill_bytes(void)
{
    memset(given.bytes, FILL, GUARD + extent + GUARD);
}

/* Each record is known again. */
static void fill_runs(void)
{
    for (size_t k = 0; k < GUARD + extent + GUARD; k++)
        given.runs[k] = (millplan_run){0xA5000000u + (uint32_t)k, 0x5A5A5A5Au, ~(uint32_t)k};
}

/* New rows of so many entries. */
static void fill(size_t entries)
{
    extent = entries;
    fill_bytes();
    fill_runs();
}

static void copy_given(void)
{
    memcpy(expected.bytes, given.bytes, GUARD + extent + GUARD);
    memcpy(expected.runs, given.runs, (GUARD + extent + GUARD) * sizeof *runs);
}

/* Both rows, whole and with their guards, are what the plain call left there. */
static int rows_agree(void)
{
    return memcmp(given.bytes, expected.bytes, GUARD + extent + GUARD) == 0
           && memcmp(given.runs, expected.runs, (GUARD + extent + GUARD) * sizeof *runs) == 0;
}

static int same(millplan_log one, millplan_log other)
{
    return one.number == other.number && one.place == other.place && one.count == other.count;
}

static millplan_log call_write(const char *what, size_t answers_len, size_t runs_len)
{
    copy_given();
    const millplan_log plain = plain_write(expected.bytes + GUARD, answers_len, expected.runs + GUARD, runs_len);
    const millplan_log log = millplan_log_write(bytes, answers_len, runs, runs_len);
    check(same(log, plain) && rows_agree(), what, log.place);
    return log;
}

static millplan_log call_expand(const char *what, size_t runs_len, size_t answers_len)
{
    copy_given();
    const millplan_log plain = plain_expand(expected.runs + GUARD, runs_len, expected.bytes + GUARD, answers_len);
    const millplan_log log = millplan_log_expand(runs, runs_len, bytes, answers_len);
    check(same(log, plain) && rows_agree(), what, log.place);
    return log;
}

static void expect(const char *what, millplan_log log, uint32_t number, uint32_t place, size_t count)
{
    check(same(log, (millplan_log){number, place, (uint32_t)count}), what, log.number);
}

/* Writes the answers at hand into rows of records around what is needed, then expands them into rows
   of bytes around as many as there were: exactly these give the same bytes. */
static void check_round_trip(const char *what, size_t length)
{
    static uint8_t original[LARGE];
    const size_t needed = plain_needed(bytes, length);
    memcpy(original, bytes, length);
    if (needed > 0) {
        expect(what, call_write(what, length, 0), 24, 0, 0);
        expect(what, call_write(what, length, needed - 1), 24, 0, 0);
    }
    expect(what, call_write(what, length, needed + 1), 0, 0, needed);
    fill_runs();
    expect(what, call_write(what, length, needed), 0, 0, needed);

    fill_bytes();
    expect(what, call_expand(what, needed, length + 1), 25, 0, 0);
    if (length > 0)
        expect(what, call_expand(what, needed, length - 1), 25, 0, 0);
    expect(what, call_expand(what, needed, length), 0, 0, length);
    check(memcmp(bytes, original, length) == 0, what, length);
}

/* The paper's rows. */
static void check_rows(void)
{
    static const uint8_t answers[] = {1, 1, 2, 1};
    static const millplan_run log[] = {{1, 0, 2}, {2, 2, 1}, {1, 3, 1}};
    fill(SMALL);
    memcpy(bytes, answers, sizeof answers);
    expect("1 1 2 1", call_write("1 1 2 1", 4, 5), 0, 0, 3);
    check(memcmp(runs, log, sizeof log) == 0, "1 1 2 1", 3);
    check_round_trip("1 1 2 1", 4);

    /* In 32 bits the sum would be 0, and the third record would follow. */
    static const millplan_run large[] = {{1, 0, 2}, {2, 2, 4294967294u}, {3, 0, 4}};
    fill(SMALL);
    memcpy(runs, large, sizeof large);
    expect("sum of 2^32", call_expand("sum of 2^32", 2, 0), 25, 2, 0);
    expect("sum of 2^32", call_expand("sum of 2^32", 3, 4), 25, 2, 0);
}

/* Nothing to read, nothing to write, or neither; also where there is no memory at all. */
static void check_empty(void)
{
    fill(SMALL);
    expect("no answers", call_write("no answers", 0, 0), 0, 0, 0);
    expect("no answers", call_write("no answers", 0, 2), 0, 0, 0);
    expect("no records", call_expand("no records", 0, 0), 0, 0, 0);
    expect("no records", call_expand("no records", 0, 1), 25, 0, 0);

    bytes[0] = 1;
    runs[0] = (millplan_run){1, 0, 1};
    copy_given();
    expect("NULL", millplan_log_write(NULL, 0, NULL, 0), 0, 0, 0);
    expect("NULL", millplan_log_write(NULL, 0, runs, 1), 0, 0, 0);
    expect("NULL", millplan_log_write(bytes, 1, NULL, 0), 24, 0, 0);
    expect("NULL", millplan_log_expand(NULL, 0, NULL, 0), 0, 0, 0);
    expect("NULL", millplan_log_expand(NULL, 0, bytes, 1), 25, 0, 0);
    expect("NULL", millplan_log_expand(runs, 1, NULL, 0), 25, 0, 0);
    check(rows_agree(), "NULL", 0);
}

/* Each byte as the one answer; then a byte at or above 16 at each place of rows, alone and before
   another, with room for the records and with none. */
static void check_answers(void)
{
    for (unsigned answer = 0; answer <= 255; answer++) {
        fill(SMALL);
        bytes[0] = (uint8_t)answer;
        if (answer <= HIGHEST_TASK)
            check_round_trip("one answer", 1);
        else
            expect("one answer", call_write("one answer", 1, 1), 23, 1, 0);
    }
    static const uint8_t high[] = {16, 17, 18, 128, 255};
    for (size_t length = 1; length <= 40; length++)
        for (size_t at = 0; at < length; at++)
            for (size_t k = 0; k < sizeof high; k++) {
                fill(SMALL);
                for (size_t j = 0; j < length; j++)
                    bytes[j] = (uint8_t)(j / 2 % 5);
                bytes[at] = high[k];
                call_write("high answer", length, 0);
                call_write("high answer", length, length);
                bytes[length - 1] = 200;
                call_write("two high answers", length, length);
            }
}

/* Each field of each record of a fit log put to each number at an edge, the log whole or cut behind
   it, alone and before another fault, with a row that would be right and one that would not. */
static void check_fields(void)
{
    static const millplan_run log[] = {{1, 0, 2}, {0, 2, 3}, {16, 5, 1}, {1, 6, 4}, {2, 10, 2}};
    static const uint32_t edges[] = {
        0, 1, 2, 3, 4, 5, 6, 7, 8, 9, 10, 11, 12, 15, 16, 17, 18, 255, 256, 257, 258, 272, 65535, 65536, 65537,
        59988, 59990, 59991, 59994, 59995, 59996, 59998, 59999, 60000, 60001, 16777217, 2147483647, 2147483648u,
        4294907296u, 4294967284u, 4294967286u, 4294967290u, 4294967291u, 4294967294u, 4294967295u};
    enum { COUNT = sizeof log / sizeof *log };
    for (size_t count = 1; count <= COUNT; count++)
        for (size_t at = 0; at < count; at++)
            for (unsigned field = 0; field < 3; field++)
                for (size_t k = 0; k < sizeof edges / sizeof *edges; k++) {
                    const size_t length = log[count - 1].first + log[count - 1].length;
                    fill(SMALL);
                    memcpy(runs, log, sizeof log);
                    uint32_t *const fields[] = {&runs[at].task, &runs[at].first, &runs[at].length};
                    *fields[field] = edges[k];
                    call_expand("one field", count, length);
                    fill_bytes();
                    call_expand("one field, another row", count, length + 1);
                    runs[count - 1].task = 17;
                    call_expand("two fields", count, length);
                }
}

/* As many answers as are allowed, one fewer and one more: all equal, the first and the last another,
   and no two neighbours equal. */
static void check_most(void)
{
    enum { EQUAL, ENDS, ALTERNATING, KINDS };
    for (size_t length = MOST_ANSWERS - 1; length <= MOST_ANSWERS + 1; length++)
        for (int kind = 0; kind < KINDS; kind++) {
            fill(LARGE);
            for (size_t k = 0; k < length; k++)
                bytes[k] = kind == ALTERNATING && k % 2 == 1 ? 0 : 16;
            if (kind == ENDS)
                bytes[0] = bytes[length - 1] = 1;
            if (length <= MOST_ANSWERS) {
                check_round_trip("most answers", length);
                bytes[length - 1] = 17;
                expect("the last above 16", call_write("the last above 16", length, LARGE), 23, (uint32_t)length, 0);
            } else {
                expect("one too many", call_write("one too many", length, LARGE), 23, 0, 0);
                expect("one too many", call_write("one too many", length, 0), 23, 0, 0);
                bytes[0] = 17;
                expect("one too many", call_write("one too many", length, LARGE), 23, 0, 0);
            }
        }

    /* Of more than 60,000 records of one tick the first behind them is unfit. */
    fill(LARGE);
    for (size_t k = 0; k < LARGE; k++)
        runs[k] = (millplan_run){(uint32_t)(k % 2), (uint32_t)k, 1};
    expect("most records", call_expand("most records", MOST_ANSWERS, MOST_ANSWERS), 0, 0, MOST_ANSWERS);
    for (size_t count = MOST_ANSWERS + 1; count <= LARGE; count += 33)
        expect("too many", call_expand("too many", count, count), 25, MOST_ANSWERS + 1, 0);
    runs[MOST_ANSWERS - 1].length = 2;
    expect("too long", call_expand("too long", MOST_ANSWERS, MOST_ANSWERS + 1), 25, MOST_ANSWERS, 0);
}

/* Answers of random runs. */
static void put_random(size_t length, uint32_t tasks, uint32_t longest)
{
    for (size_t k = 0; k < length;) {
        const uint8_t task = (uint8_t)below(tasks);
        for (uint32_t left = 1 + below(longest); left > 0 && k < length; left--)
            bytes[k++] = task;
    }
}

static void check_long(void)
{
    static const uint32_t longest[] = {1, 3, 20, 300, 5000};
    for (size_t k = 0; k < sizeof longest / sizeof *longest; k++) {
        const size_t length = MOST_ANSWERS - below(1000);
        fill(LARGE);
        put_random(length, 17, longest[k]);
        check_round_trip("long row", length);
    }
}

/* Random answers, one time in eight with one above 16, written into rows mostly long enough. Then the
   records, half of the time with one or two fields changed, into a row mostly of the right length. */
static void check_random(unsigned long which)
{
    const size_t length = below(65);
    fill(SMALL);
    put_random(length, 1 + below(17), 1 + below(9));
    if (length > 0 && below(8) == 0)
        bytes[below((uint32_t)length)] = (uint8_t)(16 + below(below(2) == 0 ? 3 : 240));
    const size_t needed = plain_needed(bytes, length);
    const size_t room = below(4) == 0 ? below((uint32_t)needed + 1) : needed + below(3);
    const millplan_log log = call_write("random answers", length, room);
    seen[log.number % 32]++;
    if (log.number != 0)
        return;

    const unsigned changes = needed == 0 || below(2) == 0 ? 0 : 1 + below(2);
    for (unsigned k = 0; k < changes; k++) {
        const uint32_t at = below((uint32_t)needed);
        uint32_t *const fields[] = {&runs[at].task, &runs[at].first, &runs[at].length};
        uint32_t *const field = fields[below(3)];
        const uint32_t words[] = {below(20), *field + 1, *field - 1, *field + 256, *field + 65536, 0,
                                  UINT32_MAX - below(80), 59930 + below(80), below(UINT32_MAX)};
        *field = words[below(sizeof words / sizeof *words)];
    }
    uint8_t original[SMALL];
    memcpy(original, bytes, sizeof original);
    fill_bytes();
    const size_t row = below(4) == 0 ? below(65) : length;
    seen[call_expand("random records", needed, row).number % 32]++;
    if (changes == 0 && row == length)
        check(memcmp(bytes, original, length) == 0, "random round trip", which);
}

int main(int argc, char **argv)
{
    state = argc > 1 ? strtoull(argv[1], NULL, 10) : 1;
    const unsigned long logs = argc > 2 ? strtoul(argv[2], NULL, 10) : 300000;

    check_rows();
    check_empty();
    check_answers();
    check_fields();
    check_most();
    check_long();
    for (unsigned long k = 1; k <= logs; k++)
        check_random(k);
    static const unsigned numbers[] = {0, 23, 24, 25};
    for (size_t k = 0; k < 4; k++)
        check(logs < 10000 || seen[numbers[k]] > logs / 20, "number drawn", numbers[k]);

    printf("%lu checks, %lu failed\n", checks, failed);
    return failed == 0 ? 0 : 1;
}
