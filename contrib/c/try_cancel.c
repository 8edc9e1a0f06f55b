/* A check of a million copies that is cancelled at its third piece has no verdict, and nothing to
   hand on.

       try_cancel QUEUE JOB */
#define _POSIX_C_SOURCE 200809L
#include "gate.h"

#include <fcntl.h>
#include <stdio.h>
#include <string.h>
#include <unistd.h>

enum { LAST = 3 };

static bool is_cancelled(void *job)
{
    int *asked = job;

    return ++*asked == LAST;
}

int main(int argc, char *argv[])
{
    struct pclcheck_fleet fleet;
    int asked = 0, spool = 0;
    struct gate_job job = {.copies = 1000000, .is_cancelled = is_cancelled, .job = &asked};
    char sentence[1024];
    enum gate_answer answer;

    if (argc != 3 || !gate_open(argv[1], &fleet, sentence, sizeof sentence))
        return 2;
    job.file = open(argv[2], O_RDONLY);
    answer = gate_check(&fleet, &job, &spool, sentence, sizeof sentence);
    pclcheck_fleet_free(&fleet);
    close(job.file);
    printf("%d, %d asked, spool %d: %s\n", answer, asked, spool, sentence);
    return answer == GATE_NO_VERDICT && asked == LAST && spool < 0
           && strcmp(sentence, "no verdict on this job: it was cancelled") == 0 ? 0 : 1;
}
