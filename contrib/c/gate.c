/* The fleet of a queue, and a check for it. */
#define _GNU_SOURCE
#include "gate.h"

#include <errno.h>
#include <fcntl.h>
#include <stdint.h>
#include <stdio.h>
#include <stdlib.h>
#include <string.h>
#include <unistd.h>

enum { MOST_PATH = 4096, MOST_SENTENCE = 4096, PIECE = 65536 };
/* The program allows a fleet and a profile so many bytes. */
enum { MOST_TEXT = 65536 };
/* An overlay of 2,000 items on each of 10,000 pages; it takes some seconds for each printer. */
enum { MOST_ITEMS = 20000000 };
/* The cause Range of a profile that is refused. */
enum { RANGE = 4 };

/* The name that a sentence begins with, which is cut off; a job has none here. */
static const char NAME[] = "-";

/* ---- the fleet */

/* A fleet or a profile, up to the first byte that is too many, with a zero byte after it. */
struct text {
    size_t length;
    unsigned char bytes[MOST_TEXT + 2];
};

static ssize_t read_some(int file, unsigned char *bytes, size_t room)
{
    ssize_t got;

    do
        got = read(file, bytes, room);
    while (got < 0 && errno == EINTR);
    return got;
}

static bool read_text(int file, struct text *text)
{
    const size_t most = MOST_TEXT + 1;
    ssize_t got = 1;

    text->length = 0;
    while (got > 0 && text->length < most) {
        got = read_some(file, text->bytes + text->length, most - text->length);
        if (got > 0)
            text->length += (size_t)got;
    }
    text->bytes[text->length] = '\0';
    return got >= 0;
}

/* Gives the text of a file, which the caller frees; NULL where it cannot, and `cause` says why. */
static struct text *new_text(const char *path, char *cause, size_t room)
{
    struct text *text = malloc(sizeof *text);
    int file = text == NULL ? -1 : open(path, O_RDONLY | O_CLOEXEC);
    bool is_read = file >= 0 && read_text(file, text);

    if (!is_read) {
        snprintf(cause, room, "%s: %s", path, text == NULL ? "memory ran out" : strerror(errno));
        free(text);
    }
    if (file >= 0)
        close(file);
    return is_read ? text : NULL;
}

/* The length of the character of UTF-8 that a text begins with, or 0. A zero byte is none. */
static size_t first_character(const unsigned char *text, size_t left)
{
    static const uint32_t LEAST[] = {0, 1, 0x80, 0x800, 0x10000};
    size_t length = text[0] < 0x80 ? 1 : text[0] < 0xc0 ? 0 : text[0] < 0xe0 ? 2
                  : text[0] < 0xf0 ? 3 : text[0] < 0xf8 ? 4 : 0;
    uint32_t value = length > 1 ? text[0] & 0x7fu >> length : text[0];

    if (length > left)
        return 0;
    for (size_t at = 1; at < length; at++) {
        if ((text[at] & 0xc0) != 0x80)
            return 0;
        value = value << 6 | (text[at] & 0x3f);
    }
    return value < LEAST[length] || value > 0x10ffff || value >> 11 == 0x1b ? 0 : length;
}

/* What is wrong in the text of a fleet as a whole, in the words of the program; else NULL. */
static const char *fleet_fault(const struct text *text)
{
    size_t at = 0, length = 1;

    if (text->length > MOST_TEXT)
        return "more than 65536 bytes";
    while (at < text->length && length > 0) {
        length = first_character(text->bytes + at, text->length - at);
        at += length;
    }
    if (length > 0)
        return NULL;
    return text->bytes[at] == '\0' ? "a zero byte" : "not UTF-8 text";
}

/* What is wrong in a line of a profile, or in the text as a whole, in the words of the program. */
static const char *cause_of(const struct pclcheck_refusal *refusal)
{
    static const char *const CAUSES[] = {
        "the check stopped", "this is neither 'pclprofile 1' nor 'pclprofile 2', so no profile",
        "the first word is no key of this version",
        "this gives again what an earlier line gave, or a number twice",
        "what stands behind the key is not as the key wants it",
        "a key, a page or a face is missing",
        "a size has no page in an orientation that the panel or another page has"
    };
    if (refusal->line == 0 && refusal->cause == RANGE)
        return "the text has more than 65,536 bytes, or the panel offers what the printer lacks";
    return CAUSES[refusal->cause < sizeof CAUSES / sizeof *CAUSES ? refusal->cause : 0];
}

/* Adds the printer of one profile. */
static bool add_printer(struct pclcheck_fleet *fleet, const char *path, char *cause, size_t room)
{
    struct pclcheck_refusal refusal = {0};
    struct text *text = new_text(path, cause, room);
    uint32_t answer;

    if (text == NULL)
        return false;
    answer = pclcheck_fleet_add(fleet, text->bytes, text->length, &refusal);
    free(text);
    if (answer == PCLCHECK_REFUSED)
        snprintf(cause, room, "%s: line %llu: %s", path, (unsigned long long)refusal.line,
                 cause_of(&refusal));
    else if (answer != PCLCHECK_DONE)
        snprintf(cause, room, "%s: memory ran out", path);
    return answer == PCLCHECK_DONE;
}

/* The next line with a path, without the blanks round it; NULL where there is none. */
static char *next_path(char **rest)
{
    static const char BLANKS[] = " \t\r";
    char *line;

    while ((line = strsep(rest, "\n")) != NULL) {
        size_t length;
        line += strspn(line, BLANKS);
        length = strlen(line);
        while (length > 0 && strchr(BLANKS, line[length - 1]) != NULL)
            line[--length] = '\0';
        if (length > 0 && line[0] != '#')
            return line;
    }
    return NULL;
}

/* Puts FOLDER/NAME, or a name that is a path from the root; false where it has no room. */
static bool put_path(const char *folder, const char *name, const char *end, char *path)
{
    bool is_rooted = name[0] == '/';
    int length = snprintf(path, MOST_PATH, "%s%s%s%s", is_rooted ? "" : folder,
                          is_rooted ? "" : "/", name, end);

    return length >= 0 && length < MOST_PATH;
}

static bool add_printers(struct pclcheck_fleet *fleet, const char *folder, char *lines, char *cause,
                         size_t room)
{
    char path[MOST_PATH];
    const char *word;
    bool has_any = false;

    while ((word = next_path(&lines)) != NULL) {
        if (!put_path(folder, word, "", path)) {
            snprintf(cause, room, "the path of a profile is too long");
            return false;
        }
        if (!add_printer(fleet, path, cause, room))
            return false;
        has_any = true;
    }
    if (!has_any)
        snprintf(cause, room, "the fleet names no printer");
    return has_any;
}

/* Makes the fleet of a text, whose path messages begin with. */
static bool make_fleet(struct pclcheck_fleet *fleet, const char *folder, const char *path,
                       struct text *text, char *cause, size_t room)
{
    const char *fault = fleet_fault(text);

    if (fault == NULL && pclcheck_fleet_new(fleet) != PCLCHECK_DONE)
        fault = "memory ran out";
    if (fault != NULL) {
        snprintf(cause, room, "%s: %s", path, fault);
        return false;
    }
    pclcheck_fleet_limit(fleet, MOST_ITEMS);
    if (add_printers(fleet, folder, (char *)text->bytes, cause, room))
        return true;
    pclcheck_fleet_free(fleet);
    return false;
}

bool gate_open(const char *queue, struct pclcheck_fleet *fleet, char *cause, size_t room)
{
    const char *folder = getenv("PCLCHECK_FLEETS");
    char path[MOST_PATH];
    struct text *text;
    bool is_open;

    memset(fleet, 0, sizeof *fleet);
    if (folder == NULL)
        folder = "/etc/pclcheck";
    if (queue[0] == '.' || strchr(queue, '/') != NULL || !put_path(folder, queue, ".fleet", path)) {
        snprintf(cause, room, "the name of the queue names no fleet");
        return false;
    }
    text = new_text(path, cause, room);
    if (text == NULL)
        return false;
    is_open = make_fleet(fleet, folder, path, text, cause, room);
    free(text);
    return is_open;
}

/* ---- other languages */

/* How a job that a printer may take for another language begins: at its first byte, after a
   universal exit or a reset, and after blanks and lines of the job language there. */
static const char *const LANGUAGES[] = {"%!", "%PDF-", ") HP-PCL XL", "( HP-PCL XL", "' HP-PCL XL"};
static const char JOB_LINE[] = "@PJL";
static const char EXIT[] = "\033%-12345X", RESET[] = "\033E";
static const char BLANKS[] = "\t\n\f\r \004";
static const char OTHER_LANGUAGE[] =
    "this job is PostScript, PDF or PCL XL, or turns to one of them, which pclcheck does not check";

/* Where a job is between two of its bytes. Of a line of the job language with an exit or a reset in
   it both is possible: that it goes on, and that another start is there. */
struct languages {
    bool is_past_start, is_in_line;
    char kept[16];                      /* the bytes of a start so far, as a text */
    char escape[16];                    /* those of an exit or a reset */
};

static bool is_front(const char *text, const char *whole)
{
    return strncmp(text, whole, strlen(text)) == 0;
}

/* Appends a byte, which may be the next one of a text; a zero byte is none of any. */
static void append(char *text, unsigned char byte)
{
    size_t length = strlen(text);

    text[length] = (char)byte;
    text[length + 1] = '\0';
}

/* Follows a byte where a language may begin; says whether one has begun. */
static bool begins(struct languages *languages, unsigned char byte)
{
    char *kept = languages->kept;
    bool is_possible = false;

    if (kept[0] == '\0' && (byte == '\0' || strchr(BLANKS, byte) != NULL))
        return false;
    append(kept, byte);
    for (size_t at = 0; at < sizeof LANGUAGES / sizeof *LANGUAGES; at++) {
        if (strcmp(kept, LANGUAGES[at]) == 0)
            return true;
        is_possible = is_possible || is_front(kept, LANGUAGES[at]);
    }
    if (strcmp(kept, JOB_LINE) == 0)
        languages->is_in_line = languages->is_past_start = true;
    else if (byte == '\0' || (!is_possible && !is_front(kept, JOB_LINE)))
        languages->is_past_start = true;
    return false;
}

/* Whether a byte ends an exit or a reset. */
static bool ends_escape(struct languages *languages, unsigned char byte)
{
    char *escape = languages->escape;

    if (byte == '\033')
        escape[0] = '\0';
    else if (escape[0] == '\0')
        return false;
    append(escape, byte);
    if (strcmp(escape, EXIT) != 0 && strcmp(escape, RESET) != 0) {
        if (byte == '\0' || !(is_front(escape, EXIT) || is_front(escape, RESET)))
            escape[0] = '\0';
        return false;
    }
    escape[0] = '\0';
    return true;
}

/* Whether another language begins in the next bytes of a job. */
static bool has_language(struct languages *languages, const unsigned char *bytes, size_t length)
{
    for (size_t at = 0; at < length; at++) {
        bool ends_line = languages->is_in_line && bytes[at] == '\n';

        if (ends_escape(languages, bytes[at]) || ends_line) {
            languages->is_in_line = languages->is_in_line && !ends_line;
            languages->is_past_start = false;
            languages->kept[0] = '\0';
        } else if (!languages->is_past_start && begins(languages, bytes[at])) {
            return true;
        }
    }
    return false;
}

/* ---- what is told */

/* The sentence without the name before it, or that there is none. */
static void put_sentence(const char *text, size_t length, char *sentence, size_t room)
{
    size_t front = sizeof NAME - 1 + strlen(": ");

    while (length > 0 && text[length - 1] == '\n')
        length--;
    if (length < front)
        front = length;
    snprintf(sentence, room, "%.*s", (int)(length - front), text + front);
}

/* Some answers of a check have no sentence. */
static void put_trouble(uint32_t answer, char *sentence, size_t room)
{
    const char *why = answer == PCLCHECK_MEMORY ? "memory ran out"
                    : answer == PCLCHECK_NO_PRINTER ? "the fleet has no printer"
                    : answer == PCLCHECK_LONG ? "the job is too long"
                    : answer == PCLCHECK_ITEMS ? "its macros carry out too many items"
                    : "the check stopped";
    snprintf(sentence, room, "no verdict on this job: %s", why);
}

/* ---- a job in pieces */

/* A file without a name, in TMPDIR or /tmp. */
static int new_spool(void)
{
    const char *folder = getenv("TMPDIR");
    char path[MOST_PATH];
    int file;

    if (!put_path(folder != NULL ? folder : "/tmp", "pclcheck.XXXXXX", "", path)) {
        errno = ENAMETOOLONG;
        return -1;
    }
    file = mkostemp(path, O_CLOEXEC);
    if (file >= 0)
        unlink(path);
    return file;
}

static bool write_piece(int file, const unsigned char *piece, size_t length)
{
    while (length > 0) {
        ssize_t written = write(file, piece, length);
        if (written < 0 && errno != EINTR)
            return false;
        if (written > 0) {
            piece += written;
            length -= (size_t)written;
        }
    }
    return true;
}

/* A check under way, and what its last call answered. */
struct check {
    struct pclcheck_fleet *fleet;
    const struct gate_job *job;
    int spool;
    struct pclcheck_session session;
    uint32_t answer;
    bool is_any_language;
    struct languages languages;
};

/* Feeds the next piece; what it says is told in place of a verdict. */
static const char *feed_piece(struct check *check, const unsigned char *piece, size_t length)
{
    const struct gate_job *job = check->job;

    if (job->is_cancelled != NULL && job->is_cancelled(job->job))
        return "no verdict on this job: it was cancelled";
    if (!check->is_any_language && has_language(&check->languages, piece, length))
        return OTHER_LANGUAGE;
    check->answer = pclcheck_session_feed(check->fleet, &check->session, piece, length);
    return NULL;
}

/* Feeds what is left of a file, until the check wants no more. Of the job itself what is read is
   kept, and these bytes alone are handed on. */
static const char *feed(struct check *check, int file)
{
    unsigned char piece[PIECE];
    const char *trouble = NULL;
    ssize_t got = 1;

    while (trouble == NULL && got > 0 && check->answer == PCLCHECK_DONE) {
        got = read_some(file, piece, sizeof piece);
        if (got < 0)
            trouble = "no verdict on this job: it could not be read";
        else if (file != check->spool && !write_piece(check->spool, piece, (size_t)got))
            trouble = "no verdict on this job: it could not be kept";
        else if (got > 0)
            trouble = feed_piece(check, piece, (size_t)got);
    }
    return trouble;
}

/* Feeds the job, and then its further copies from what is kept of the first. */
static const char *feed_copies(struct check *check)
{
    const char *trouble = feed(check, check->job->file);

    for (unsigned at = 1; at < check->job->copies && check->answer == PCLCHECK_DONE; at++) {
        if (trouble == NULL && lseek(check->spool, 0, SEEK_SET) != 0)
            trouble = "no verdict on this job: it could not be read";
        if (trouble == NULL)
            trouble = feed(check, check->spool);
    }
    return trouble;
}

/* Only what was fed to its end, and of which the library answers a verdict of number 0, passes. */
static enum gate_answer tell(struct check *check, char *sentence, size_t room)
{
    struct pclcheck_verdict verdict = {.number = UINT32_MAX};
    uint8_t text[MOST_SENTENCE];
    size_t needed = 0;
    uint32_t answer = pclcheck_session_tell(check->fleet, &check->session, (const uint8_t *)NAME,
                                            sizeof NAME - 1, &verdict, text, sizeof text, &needed);

    if (answer == PCLCHECK_DONE) {
        put_sentence((const char *)text, needed, sentence, room);
    } else if (answer == PCLCHECK_ROOM) {
        snprintf(sentence, room, "this job fails by %u", verdict.number);
        return GATE_FAILS;
    } else {
        put_trouble(answer, sentence, room);
        return GATE_NO_VERDICT;
    }
    return check->answer == PCLCHECK_DONE && verdict.number == 0 ? GATE_PASSES : GATE_FAILS;
}

/* Checks a job by a session that has begun. */
static enum gate_answer check_copies(struct check *check, char *sentence, size_t room)
{
    const char *trouble = feed_copies(check);

    if (trouble == NULL)
        return tell(check, sentence, room);
    snprintf(sentence, room, "%s", trouble);
    return trouble == OTHER_LANGUAGE ? GATE_FAILS : GATE_NO_VERDICT;
}

enum gate_answer gate_check(struct pclcheck_fleet *fleet, const struct gate_job *job, int *spool,
                            char *sentence, size_t room)
{
    const char *any = getenv("PCLCHECK_ANY_LANGUAGE");
    struct check check = {.fleet = fleet, .job = job, .spool = new_spool()};
    enum gate_answer answer = GATE_NO_VERDICT;

    *spool = -1;
    if (check.spool < 0) {
        snprintf(sentence, room, "no verdict on this job: it cannot be kept: %s", strerror(errno));
        return answer;
    }
    check.is_any_language = any != NULL && strcmp(any, "print") == 0;
    check.answer = pclcheck_session_new(fleet, 0, &check.session);
    if (check.answer == PCLCHECK_DONE) {
        answer = check_copies(&check, sentence, room);
        pclcheck_session_free(&check.session);
    } else {
        put_trouble(check.answer, sentence, room);
    }
    if (answer == GATE_PASSES)
        *spool = check.spool;
    else
        close(check.spool);
    return answer;
}

bool gate_pass(int spool, unsigned copies, gate_put *put, void *to)
{
    unsigned char piece[PIECE];
    ssize_t got;

    for (unsigned at = 0; at < copies; at++) {
        if (lseek(spool, 0, SEEK_SET) != 0)
            return false;
        while ((got = read_some(spool, piece, sizeof piece)) != 0) {
            if (got < 0 || !put(to, piece, (size_t)got))
                return false;
        }
    }
    return true;
}
