/* The run log of a core, as C calls it: which task had the core, from which tick and for how long. */

#ifndef MILLPLAN_LOG_H
#define MILLPLAN_LOG_H

#include <stddef.h>
#include <stdint.h>

#ifdef __cplusplus
extern "C" {
#endif

/* A record: this task, 0 to 16, had the core from tick `first` on, counted from 0, for `length`
 * ticks; task 0 is none. */
typedef struct {
    uint32_t task, first, length;
} millplan_run;

/* What a call returns.
 *
 * number  0, or the refusal: the first cause in the order of the call's tests.
 * place   of a refusal the first answer or record with that cause, counted from 1, or 0; else 0.
 * count   how many records were needed, or how many answers were filled in; 0 on a refusal. */
typedef struct {
    uint32_t number, place, count;
} millplan_log;

/* Both are twelve bytes, without gaps: elsewhere this does not compile. */
typedef char millplan_run_is_twelve_bytes[sizeof(millplan_run) == 12 ? 1 : -1];
typedef char millplan_log_is_twelve_bytes[sizeof(millplan_log) == 12 ? 1 : -1];

enum {
    MILLPLAN_LOG_ANSWER = 23,   /* writing: over 60,000 answers, place 0, or else one above 16 */
    MILLPLAN_LOG_ROOM = 24,     /* writing: fewer records at runs than needed; place 0 */
    MILLPLAN_LOG_RECORD = 25    /* expanding: an unfit record, or else a wrong length, place 0 */
};

/* Writes the log of tick answers: neighbouring equal answers make one record.
 *
 * answers      for each tick the task that ran, 1 to 16, or 0. Only read; may be NULL if there are
 *              none.
 * answers_len  number of answers, at most 60,000.
 * runs         receives the records. Must not overlap the answers; may be NULL if it has none.
 * runs_len     number of records at runs. As many are needed as there are answers that differ from
 *              the one before, and one for the first: at most answers_len. Records after those keep
 *              their values.
 *
 * On a refusal nothing is written, and count is 0 on MILLPLAN_LOG_ROOM too. */
millplan_log millplan_log_write(const uint8_t *answers, size_t answers_len,
                                millplan_run *runs, size_t runs_len);

/* The reverse: fills in the answers of records. What millplan_log_write wrote, count records of it,
 * gives the answers that it was written of.
 *
 * runs         the records. One is unfit if its task is above 16 or that of the record before, its
 *              length is 0, its first tick is not the sum of the lengths before it, or that sum with
 *              its own length is above 60,000. Only read; may be NULL if there are none.
 * runs_len     number of records.
 * answers      receives an answer for each tick. Must not overlap the records; may be NULL if it has
 *              no bytes.
 * answers_len  number of bytes at answers: exactly the sum of all lengths, neither less nor more.
 *
 * On a refusal nothing is written. */
millplan_log millplan_log_expand(const millplan_run *runs, size_t runs_len,
                                 uint8_t *answers, size_t answers_len);

#ifdef __cplusplus
}
#endif

#endif
