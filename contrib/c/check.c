/* Checks a job for printers by the library of pclcheck.
 *
 *     cc -O2 -D_FORTIFY_SOURCE=2 -fstack-protector-strong check.c \
 *         $(pkg-config --cflags --libs pclcheck) -o check
 *     ./check JOB PROFILE..
 *
 * The sentence on the job goes to standard output. The status is 0 where it passes, 1 where it
 * fails, and 2 where it could not be checked.
 */
#include <pclcheck.h>
#include <stdio.h>
#include <stdlib.h>
#include <string.h>

/* A profile has at most so many bytes: the library refuses one more. */
enum { MOST_PROFILE = 65536, PIECE = 65536, ENOUGH = 4096 };
enum { PASSES, FAILS, NOT_CHECKED };

/* Gives a path as it is shown, which the caller frees: what a terminal would obey becomes `?`. */
static char *new_name(const char *path)
{
    char *name = malloc(strlen(path) + 1);

    for (size_t at = 0; name != NULL && at <= strlen(path); at++)
        name[at] = path[at] == '\0' || (path[at] >= ' ' && path[at] <= '~') ? path[at] : '?';
    return name;
}

static int complain(const char *name, const char *why)
{
    fprintf(stderr, "%s: %s\n", name, why);
    return 0;
}

static int complain_of(const char *name, uint32_t answer)
{
    fprintf(stderr, "%s: the library answers %u\n", name, answer);
    return 0;
}

/* Adds the printer of a profile, or tells why it cannot. */
static int add_text(struct pclcheck_fleet *fleet, const char *name, FILE *file)
{
    static uint8_t text[MOST_PROFILE + 1];
    struct pclcheck_refusal refusal;
    size_t length = fread(text, 1, sizeof text, file);
    uint32_t answer;

    if (ferror(file))
        return complain(name, "it could not be read");
    answer = pclcheck_fleet_add(fleet, text, length, &refusal);
    if (answer == PCLCHECK_REFUSED)
        fprintf(stderr, "%s: line %llu is wrong\n", name, (unsigned long long)refusal.line);
    else if (answer != PCLCHECK_DONE)
        complain_of(name, answer);
    return answer == PCLCHECK_DONE;
}

static int add_printer(struct pclcheck_fleet *fleet, const char *path)
{
    char *name = new_name(path);
    FILE *file = name == NULL ? NULL : fopen(path, "rb");
    int is_added = file == NULL ? complain(name == NULL ? "?" : name, "it could not be opened")
                                : add_text(fleet, name, file);

    if (file != NULL)
        fclose(file);
    free(name);
    return is_added;
}

/* Feeds a job to its end, or until its verdict is certain. False where a byte was not read. */
static int feed(struct pclcheck_fleet *fleet, struct pclcheck_session *session, FILE *job)
{
    static uint8_t piece[PIECE];
    uint32_t answer = PCLCHECK_DONE;

    while (answer == PCLCHECK_DONE && !feof(job) && !ferror(job)) {
        size_t length = fread(piece, 1, sizeof piece, job);
        answer = pclcheck_session_feed(fleet, session, piece, length);
    }
    return !ferror(job);
}

/* Tells of a job; where the sentence is too long for the room, it is asked for once more. */
static int tell(struct pclcheck_fleet *fleet, struct pclcheck_session *session, const char *name)
{
    struct pclcheck_verdict verdict;
    size_t room = ENOUGH, needed;
    uint8_t *text = malloc(room);
    uint32_t answer = PCLCHECK_MEMORY;

    while (text != NULL) {
        answer = pclcheck_session_tell(fleet, session, (const uint8_t *)name, strlen(name),
                                       &verdict, text, room, &needed);
        if (answer != PCLCHECK_ROOM)
            break;
        room = needed;
        free(text);
        text = malloc(room);
    }
    if (text == NULL || answer != PCLCHECK_DONE) {
        complain_of(name, text == NULL ? PCLCHECK_MEMORY : answer);
        free(text);
        return NOT_CHECKED;
    }
    fwrite(text, 1, needed, stdout);
    free(text);
    return verdict.number == 0 ? PASSES : FAILS;
}

/* Checks an open job. What was not read to its end without an error has no verdict. */
static int check(struct pclcheck_fleet *fleet, const char *name, FILE *job)
{
    struct pclcheck_session session = {0};
    uint32_t answer = pclcheck_session_new(fleet, 0, &session);
    int status = NOT_CHECKED;

    if (answer != PCLCHECK_DONE) {
        complain_of(name, answer);
        return status;
    }
    if (feed(fleet, &session, job))
        status = tell(fleet, &session, name);
    else
        complain(name, "it could not be read");
    pclcheck_session_free(&session);
    return status;
}

static int check_path(struct pclcheck_fleet *fleet, const char *path)
{
    char *name = new_name(path);
    FILE *job = name == NULL ? NULL : fopen(path, "rb");
    int status = NOT_CHECKED;

    if (job == NULL) {
        complain(name == NULL ? "?" : name, "it could not be opened");
    } else {
        status = check(fleet, name, job);
        fclose(job);
    }
    free(name);
    return status;
}

int main(int argc, char *argv[])
{
    struct pclcheck_fleet fleet = {0};
    int status = NOT_CHECKED, is_fleet = 1;

    if (argc < 3) {
        fprintf(stderr, "Usage: %s JOB PROFILE..\n", argc > 0 ? argv[0] : "check");
        return status;
    }
    if (pclcheck_fleet_new(&fleet) != PCLCHECK_DONE)
        return status;
    for (int at = 2; at < argc; at++)
        is_fleet = is_fleet && add_printer(&fleet, argv[at]);
    if (is_fleet)
        status = check_path(&fleet, argv[1]);
    pclcheck_fleet_free(&fleet);
    return fflush(stdout) == 0 && !ferror(stdout) ? status : NOT_CHECKED;
}
