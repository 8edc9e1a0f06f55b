/* A filter of CUPS: hands on a job of PCL 5 that each printer of the queue's fleet prints, and
   stops any other with the sentence that says why.

   CUPS calls it with JOB USER TITLE COPIES OPTIONS [FILE], and the queue in PRINTER. Its exit
   status is 1 where the job is stopped. For a job of several files it is called for each, and CUPS
   sends what it writes as one stream, unless the PPD says *cupsSingleFile: True. */
#define _DEFAULT_SOURCE
#include "gate.h"

#include <fcntl.h>
#include <stdio.h>
#include <stdlib.h>
#include <signal.h>
#include <string.h>
#include <strings.h>
#include <unistd.h>

enum { MOST_COPIES = 9999 };

/* CUPS shows words of its own where it sees the end of the filter before it reads why. */
static int stop(const char *sentence)
{
    fprintf(stderr, "ERROR: preflight: %s\n", sentence);
    sleep(1);
    return EXIT_FAILURE;
}

/* How often the job is printed; 0 where CUPS says nonsense. On standard input it has its copies. */
static unsigned copies_of(int argc, char *argv[])
{
    char *end;
    unsigned long copies = strtoul(argv[4], &end, 10);

    if (argc == 6)
        return 1;
    return *end == '\0' && copies >= 1 && copies <= MOST_COPIES ? (unsigned)copies : 0;
}

static bool put(void *to, const unsigned char *bytes, size_t length)
{
    return fwrite(bytes, 1, length, to) == length;
}

/* Reads what is left, so that who writes it is not stopped. */
static void drain(int file)
{
    char rest[4096];

    while (read(file, rest, sizeof rest) > 0)
        ;
}

/* Whether each file of a job is a stream of its own, as the PPD of the queue says. */
static bool is_single_file(const char *ppd)
{
    char line[1024];
    bool is_single = false;
    FILE *file = fopen(ppd, "r");

    while (file != NULL && !is_single && fgets(line, sizeof line, file) != NULL) {
        char value[8] = "";
        is_single = sscanf(line, "*cupsSingleFile: %7s", value) == 1
                    && strcasecmp(value, "true") == 0;
    }
    if (file != NULL)
        fclose(file);
    return is_single;
}

/* Checks what the printer gets, all copies as one stream, and hands it on where it passes. */
static int pass_on(struct pclcheck_fleet *fleet, const struct gate_job *job)
{
    char sentence[2048];
    int spool, status = EXIT_SUCCESS;

    if (gate_check(fleet, job, &spool, sentence, sizeof sentence) != GATE_PASSES) {
        drain(job->file);
        return stop(sentence);
    }
    fprintf(stderr, "NOTICE: preflight: %s\n", sentence);
    if (!gate_pass(spool, job->copies, put, stdout) || fflush(stdout) != 0)
        status = stop("the job could not be handed on");
    close(spool);
    return status;
}

static int run(const char *queue, const struct gate_job *job)
{
    struct pclcheck_fleet fleet;
    char cause[1024];
    int status;

    if (!gate_open(queue, &fleet, cause, sizeof cause))
        return stop(cause);
    status = pass_on(&fleet, job);
    pclcheck_fleet_free(&fleet);
    return status;
}

int main(int argc, char *argv[])
{
    const char *queue = getenv("PRINTER"), *ppd = getenv("PPD");
    struct gate_job job = {.file = STDIN_FILENO};

    signal(SIGPIPE, SIG_IGN);
    if (queue == NULL || argc < 6 || argc > 7)
        return stop("CUPS calls this filter, with a job and the queue in PRINTER");
    job.copies = copies_of(argc, argv);
    if (job.copies == 0)
        return stop("CUPS gave a bad number of copies");
    if (ppd != NULL && !is_single_file(ppd))
        return stop("the PPD of the queue does not say *cupsSingleFile: True, so that several "
                    "files of a job would be sent as one stream");
    if (argc == 7)
        job.file = open(argv[6], O_RDONLY | O_CLOEXEC);
    if (job.file < 0)
        return stop("the job could not be read");
    return run(queue, &job);
}
