/* Each call of the library on one job and its printers. */
#ifndef LIBRARY_CALLS_H
#define LIBRARY_CALLS_H

#include <pclcheck.h>
#include <stdbool.h>
#include <stddef.h>
#include <stdint.h>
#include <stdio.h>

enum { MOST_PRINTERS = 64, MOST_VALUES = 8 };

/* Bytes that end where memory ends: who reads or writes behind them is stopped at once. */
struct guarded {
    uint8_t *bytes;
    size_t length;
};

/* A job with its printers and what is asked of it, and what the last call left beside its text. */
struct subject {
    unsigned long number;       /* of the case, by which faults are told */
    uint64_t page;              /* that is drawn beside all pages */
    struct pclcheck_panel_value values[MOST_VALUES];
    size_t value_count;
    struct guarded code;        /* that is explained */
    struct guarded name;        /* of the job */
    struct guarded job;
    struct guarded profiles[MOST_PRINTERS];
    size_t profile_count;
    struct pclcheck_fleet fleet;
    size_t printers;            /* that the fleet has */
    struct pclcheck_verdict verdict;
    struct pclcheck_refusal refusal;
};

/* A call puts a text, or none, and is DONE then. */
struct call {
    const char *name;
    uint32_t (*make)(struct subject *subject, uint8_t *text, size_t room, size_t *needed);
};

extern const struct call CALLS[];
extern const size_t CALL_COUNT;

/* Memory of this size, filled with a byte that no call may change. */
struct guarded guarded_room(size_t length);
void guarded_free(struct guarded guarded);

/* Reads the next case of a file, which has no fleet then; false where no case is left. A case is a
 * line of numbers (its own, the page, how many values, the field and the value of each, how many
 * texts, the length of each), and behind it the texts: code, name, job, profiles. */
bool subject_read(struct subject *subject, FILE *file);
void subject_free(struct subject *subject);

/* Makes the fleet, with the printers before the first profile that is refused; the answer is that
 * of the last call. The fleet is there where it is DONE or REFUSED. */
uint32_t subject_open(struct subject *subject);
void subject_close(struct subject *subject);

#endif
