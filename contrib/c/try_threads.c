/* Four threads that check jobs by sessions of one fleet, under a lock of the caller, as the manual
   page asks for. Prints how many jobs passed.

       try_threads PROFILE JOB.. */
#define _POSIX_C_SOURCE 200809L
#include <pclcheck.h>
#include <pthread.h>
#include <stdio.h>
#include <stdlib.h>

enum { THREADS = 4, TURNS = 25, MOST = 1 << 20, PIECE = 100 };

struct bytes {
    uint8_t *bytes;
    size_t length;
};

static pthread_mutex_t lock = PTHREAD_MUTEX_INITIALIZER;
static struct pclcheck_fleet fleet;
static struct bytes *jobs;
static int count, passed;

static struct bytes read_file(const char *path)
{
    struct bytes file = {malloc(MOST), 0};
    FILE *from = fopen(path, "rb");

    if (file.bytes == NULL || from == NULL)
        exit(2);
    file.length = fread(file.bytes, 1, MOST, from);
    fclose(from);
    return file;
}

static uint32_t feed(struct pclcheck_session *session, const struct bytes *job, size_t at)
{
    size_t length = job->length - at < PIECE ? job->length - at : PIECE;
    uint32_t answer;

    pthread_mutex_lock(&lock);
    answer = pclcheck_session_feed(&fleet, session, job->bytes + at, length);
    pthread_mutex_unlock(&lock);
    return answer;
}

/* Checks a job; what other threads do meanwhile comes between its pieces. */
static void check(const struct bytes *job)
{
    struct pclcheck_session session = {0};
    struct pclcheck_verdict verdict;
    uint32_t answer;

    pthread_mutex_lock(&lock);
    answer = pclcheck_session_new(&fleet, 0, &session);
    pthread_mutex_unlock(&lock);
    for (size_t at = 0; at < job->length && answer == PCLCHECK_DONE; at += PIECE)
        answer = feed(&session, job, at);
    pthread_mutex_lock(&lock);
    answer = pclcheck_session_end(&fleet, &session, &verdict);
    passed += answer == PCLCHECK_DONE && verdict.number == 0;
    pclcheck_session_free(&session);
    pthread_mutex_unlock(&lock);
}

static void *work(void *unused)
{
    for (int turn = 0; turn < TURNS; turn++)
        check(&jobs[turn % count]);
    return unused;
}

int main(int argc, char *argv[])
{
    pthread_t threads[THREADS];
    struct pclcheck_refusal refusal;
    struct bytes profile;

    if (argc < 3)
        return 2;
    profile = read_file(argv[1]);
    if (pclcheck_fleet_new(&fleet) != PCLCHECK_DONE
        || pclcheck_fleet_add(&fleet, profile.bytes, profile.length, &refusal) != PCLCHECK_DONE)
        return 2;
    count = argc - 2;
    jobs = calloc((size_t)count, sizeof *jobs);
    for (int at = 0; at < count && jobs != NULL; at++)
        jobs[at] = read_file(argv[at + 2]);
    for (int at = 0; at < THREADS; at++)
        if (jobs == NULL || pthread_create(&threads[at], NULL, work, NULL) != 0)
            return 2;
    for (int at = 0; at < THREADS; at++)
        pthread_join(threads[at], NULL);
    printf("%d passed\n", passed);
    for (int at = 0; at < count; at++)
        free(jobs[at].bytes);
    free(jobs);
    free(profile.bytes);
    pclcheck_fleet_free(&fleet);
    return 0;
}
