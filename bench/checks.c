/* Measures checks by the library: checks JOB PROFILE.. writes how many nanoseconds of processor time
 * a check takes, the least mean of some runs, where the fleet is read once. */
#define _POSIX_C_SOURCE 200809L
#include <pclcheck.h>
#include <stdio.h>
#include <stdlib.h>
#include <time.h>

enum { RUNS = 200, CHECKS_OF_RUN = 50 };

static uint8_t *read_file(const char *path, size_t *length)
{
    FILE *file = fopen(path, "rb");
    uint8_t *bytes;
    long end;

    if (file == NULL || fseek(file, 0, SEEK_END) != 0 || (end = ftell(file)) < 0
        || (bytes = malloc((size_t)end + 1)) == NULL) {
        perror(path);
        exit(2);
    }
    rewind(file);
    *length = fread(bytes, 1, (size_t)end, file);
    fclose(file);
    return bytes;
}

static double now(void)
{
    struct timespec time;

    clock_gettime(CLOCK_PROCESS_CPUTIME_ID, &time);
    return (double)time.tv_sec * 1e9 + (double)time.tv_nsec;
}

/* How long a check takes in one run; a job that fails ends the program. */
static double time_checks(struct pclcheck_fleet *fleet, const uint8_t *job, size_t length)
{
    struct pclcheck_verdict verdict;
    double began = now();

    for (int at = 0; at < CHECKS_OF_RUN; at++) {
        if (pclcheck_check(fleet, 0, job, length, &verdict) != PCLCHECK_DONE
            || verdict.number != 0)
            exit(1);
    }
    return (now() - began) / CHECKS_OF_RUN;
}

int main(int argc, char *argv[])
{
    struct pclcheck_fleet fleet = {0};
    struct pclcheck_refusal refusal;
    size_t length, profile_length;
    uint8_t *job, *profile;
    double best = 0;

    if (argc < 3 || pclcheck_fleet_new(&fleet) != PCLCHECK_DONE)
        return 2;
    for (int at = 2; at < argc; at++) {
        profile = read_file(argv[at], &profile_length);
        if (pclcheck_fleet_add(&fleet, profile, profile_length, &refusal) != PCLCHECK_DONE)
            return 1;
        free(profile);
    }
    job = read_file(argv[1], &length);
    for (int run = 0; run < RUNS; run++) {
        double took = time_checks(&fleet, job, length);
        if (run == 0 || took < best)
            best = took;
    }
    printf("%.0f\n", best);
    free(job);
    pclcheck_fleet_free(&fleet);
    return 0;
}
