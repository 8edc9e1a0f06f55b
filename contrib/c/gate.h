/* What the callers of the library in contrib/ share: the fleet of a queue, and a check for it. */
#ifndef GATE_H
#define GATE_H

#include <pclcheck.h>
#include <stdbool.h>
#include <stddef.h>

/* What is done with a job. */
enum gate_answer {
    GATE_PASSES,                        /* each printer of the fleet prints it */
    GATE_FAILS,                         /* it is wrong, or a printer refuses it */
    GATE_NO_VERDICT                     /* the check came to no end */
};

/* A job that is to be checked. */
struct gate_job {
    int file;                           /* read once, from where it is */
    unsigned copies;                    /* which are sent with nothing between them */
    bool (*is_cancelled)(void *job);    /* asked before each piece; NULL where nobody cancels */
    void *job;                          /* what it is asked of */
};

/* Reads the fleet of a queue, FOLDER/QUEUE.fleet, a text with the path of a profile a line;
   FOLDER is PCLCHECK_FLEETS, or /etc/pclcheck. Macros may carry out as many items as pclgate
   allows. Where it says false, `cause` says why, and there is nothing to free. */
bool gate_open(const char *queue, struct pclcheck_fleet *fleet, char *cause, size_t room);

/* Checks what a printer gets, so many copies of a job as one stream, piece by piece, and puts what
   is told of it, a sentence without the name of the job. It reads no further than the verdict
   needs.
   A job that turns to another language fails, unless PCLCHECK_ANY_LANGUAGE is `print`.
   Where the job passes, `*spool` is a file without a name that has the bytes that were checked,
   for gate_pass(); the caller closes it. Of any other job it is below 0. */
enum gate_answer gate_check(struct pclcheck_fleet *fleet, const struct gate_job *job, int *spool,
                            char *sentence, size_t room);

/* Takes bytes on the way to the printer, or says false. */
typedef bool gate_put(void *to, const unsigned char *bytes, size_t length);

/* Hands on so many copies of a job that passed; false where one of its bytes was not. */
bool gate_pass(int spool, unsigned copies, gate_put *put, void *to);

#endif
