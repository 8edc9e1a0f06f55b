/* Each call of the library on one job and its printers. */
#define _GNU_SOURCE
#include "library_calls.h"

#include <stdio.h>
#include <stdlib.h>
#include <string.h>
#include <sys/mman.h>
#include <unistd.h>

enum { UNTOUCHED = 0xa5 };

static void stop(const char *what)
{
    perror(what);
    exit(2);
}

/* ---- memory */

/* How many bytes whole pages have that hold so many, and one more that nobody may touch. */
static size_t whole_pages(size_t length, size_t page)
{
    return (length + page - 1) / page * page + page;
}

struct guarded guarded_room(size_t length)
{
    size_t page = (size_t)sysconf(_SC_PAGESIZE);
    size_t whole = whole_pages(length, page);
    uint8_t *at = mmap(NULL, whole, PROT_READ | PROT_WRITE, MAP_PRIVATE | MAP_ANONYMOUS, -1, 0);

    if (at == MAP_FAILED || mprotect(at + whole - page, page, PROT_NONE) != 0)
        stop("memory");
    memset(at, UNTOUCHED, whole - page);
    return (struct guarded){at + whole - page - length, length};
}

void guarded_free(struct guarded guarded)
{
    size_t page = (size_t)sysconf(_SC_PAGESIZE);
    size_t whole = whole_pages(guarded.length, page);

    munmap(guarded.bytes + guarded.length + page - whole, whole);
}

/* ---- subjects */

static size_t read_number(FILE *file)
{
    size_t number;

    if (fscanf(file, "%zu", &number) != 1)
        stop("a case without its numbers");
    return number;
}

static size_t read_count(FILE *file, size_t most)
{
    size_t count = read_number(file);

    if (count > most)
        stop("a case with too much");
    return count;
}

static struct guarded read_text(FILE *file, size_t length)
{
    struct guarded text = guarded_room(length);

    if (fread(text.bytes, 1, length, file) != length)
        stop("a case without its texts");
    return text;
}

bool subject_read(struct subject *subject, FILE *file)
{
    size_t lengths[MOST_PRINTERS + 3] = {0}, count;

    memset(subject, 0, sizeof *subject);
    if (fscanf(file, "%lu", &subject->number) != 1)
        return false;
    subject->page = read_number(file);
    subject->value_count = read_count(file, MOST_VALUES);
    for (size_t at = 0; at < subject->value_count; at++) {
        subject->values[at].field = (uint32_t)read_number(file);
        subject->values[at].value = (uint32_t)read_number(file);
    }
    count = read_count(file, MOST_PRINTERS + 3);
    for (size_t at = 0; at < count; at++)
        lengths[at] = read_number(file);
    getc(file);
    subject->code = read_text(file, lengths[0]);
    subject->name = read_text(file, lengths[1]);
    subject->job = read_text(file, lengths[2]);
    for (size_t at = 3; at < count; at++)
        subject->profiles[subject->profile_count++] = read_text(file, lengths[at]);
    return true;
}

void subject_free(struct subject *subject)
{
    subject_close(subject);
    for (size_t at = 0; at < subject->profile_count; at++)
        guarded_free(subject->profiles[at]);
    guarded_free(subject->code);
    guarded_free(subject->name);
    guarded_free(subject->job);
}

uint32_t subject_open(struct subject *subject)
{
    uint32_t answer = pclcheck_fleet_new(&subject->fleet);

    subject->printers = 0;
    for (size_t at = 0; answer == PCLCHECK_DONE && at < subject->profile_count; at++) {
        answer = pclcheck_fleet_add(&subject->fleet, subject->profiles[at].bytes,
                                    subject->profiles[at].length, &subject->refusal);
        subject->printers += answer == PCLCHECK_DONE;
    }
    return answer;
}

void subject_close(struct subject *subject)
{
    if (subject->fleet.at != NULL)
        pclcheck_fleet_free(&subject->fleet);
}

/* ---- calls */

static uint32_t version(struct subject *subject, uint8_t *text, size_t room, size_t *needed)
{
    (void)subject;
    return pclcheck_version(text, room, needed);
}

static uint32_t explain(struct subject *subject, uint8_t *text, size_t room, size_t *needed)
{
    return pclcheck_explain(subject->code.bytes, subject->code.length, text, room, needed);
}

static uint32_t unheard(struct subject *subject, uint8_t *text, size_t room, size_t *needed)
{
    return pclcheck_explain(subject->job.bytes, subject->job.length, text, room, needed);
}

static uint32_t printer_name(struct subject *subject, uint8_t *text, size_t room, size_t *needed)
{
    return pclcheck_printer_name(subject->profiles[0].bytes, subject->profiles[0].length, text,
                                 room, needed);
}

/* A job is no profile, so that each has its faults. */
static uint32_t faults(struct subject *subject, uint8_t *text, size_t room, size_t *needed)
{
    return pclcheck_faults(subject->name.bytes, subject->name.length, subject->job.bytes,
                           subject->job.length, text, room, needed);
}

static uint32_t lint(struct subject *subject, uint8_t *text, size_t room, size_t *needed)
{
    static const uint8_t PATH[] = {'p', '0'};

    return pclcheck_faults(PATH, sizeof PATH, subject->profiles[0].bytes,
                           subject->profiles[0].length, text, room, needed);
}

/* Puts nothing. */
static uint32_t check(struct subject *subject, uint8_t *text, size_t room, size_t *needed)
{
    uint32_t answer = pclcheck_check(&subject->fleet, 0, subject->job.bytes, subject->job.length,
                                     &subject->verdict);

    (void)text;
    (void)room;
    if (answer == PCLCHECK_DONE)
        *needed = 0;
    return answer;
}

static uint32_t tell_of(struct subject *subject, size_t printer, uint8_t *text, size_t room,
                        size_t *needed)
{
    return pclcheck_tell(&subject->fleet, printer, subject->name.bytes, subject->name.length,
                         subject->job.bytes, subject->job.length, &subject->verdict, text, room,
                         needed);
}

static uint32_t tell(struct subject *subject, uint8_t *text, size_t room, size_t *needed)
{
    return tell_of(subject, 0, text, room, needed);
}

static uint32_t tell_first(struct subject *subject, uint8_t *text, size_t room, size_t *needed)
{
    return tell_of(subject, 1, text, room, needed);
}

static uint32_t tell_last(struct subject *subject, uint8_t *text, size_t room, size_t *needed)
{
    return tell_of(subject, subject->printers, text, room, needed);
}

static uint32_t tell_none(struct subject *subject, uint8_t *text, size_t room, size_t *needed)
{
    return tell_of(subject, subject->printers + 1, text, room, needed);
}

/* Their bytes may differ where no field lies. */
static bool is_same(const struct pclcheck_verdict *one, const struct pclcheck_verdict *other)
{
    return one->pages == other->pages && one->marks == other->marks && one->place == other->place
           && one->printer == other->printer && one->page == other->page
           && one->number == other->number;
}

/* Feeds the job in pieces of this length; false where one behind the verdict is answered otherwise
 * than the one that decided it. */
static bool feed_pieces(struct subject *subject, struct pclcheck_session *session, size_t length)
{
    uint32_t answer = PCLCHECK_DONE;
    size_t at = 0;

    do {
        size_t rest = subject->job.length - at;
        size_t piece = rest < length ? rest : length;
        uint32_t before = answer;
        answer = pclcheck_session_feed(&subject->fleet, session, subject->job.bytes + at, piece);
        if (before != PCLCHECK_DONE && answer != before)
            return false;
        at += piece;
    } while (at < subject->job.length);
    return true;
}

/* What the sentence of a session answers. */
static uint32_t sentence(struct subject *subject, struct pclcheck_session *session,
                         struct pclcheck_verdict *verdict, uint8_t *text, size_t room,
                         size_t *needed)
{
    return pclcheck_session_tell(&subject->fleet, session, subject->name.bytes,
                                 subject->name.length, verdict, text, room, needed);
}

/* Ends a session: its end and its sentence have to tell the same, and again, whatever it is fed. */
static uint32_t tell_end(struct subject *subject, struct pclcheck_session *session,
                         uint8_t *text, size_t room, size_t *needed)
{
    struct pclcheck_verdict ended = {0}, told = {0};
    size_t length = 0;
    uint32_t answer = pclcheck_session_end(&subject->fleet, session, &ended);

    if (answer == PCLCHECK_DONE)
        answer = sentence(subject, session, &told, text, 0, &length);
    if (answer == PCLCHECK_MEMORY)
        return answer;
    if (answer == PCLCHECK_ROOM
        && (!is_same(&ended, &told)
            || pclcheck_session_feed(&subject->fleet, session, subject->name.bytes,
                                     subject->name.length) != PCLCHECK_JUDGED))
        return PCLCHECK_STOPPED;
    answer = sentence(subject, session, &subject->verdict, text, room, needed);
    if ((answer == PCLCHECK_DONE || answer == PCLCHECK_ROOM)
        && (*needed != length || !is_same(&told, &subject->verdict)))
        return PCLCHECK_STOPPED;
    return answer;
}

static uint32_t tell_pieces(struct subject *subject, size_t length, uint8_t *text, size_t room,
                            size_t *needed)
{
    struct pclcheck_session session = {0};
    uint32_t answer = pclcheck_session_new(&subject->fleet, 0, &session);

    if (answer != PCLCHECK_DONE)
        return answer;
    answer = PCLCHECK_STOPPED;
    if (feed_pieces(subject, &session, length))
        answer = tell_end(subject, &session, text, room, needed);
    pclcheck_session_free(&session);
    return answer;
}

/* Feeds the job to the session of one printer, and between its halves to that of all. */
static uint32_t tell_between(struct subject *subject, struct pclcheck_session *all,
                             struct pclcheck_session *first, uint8_t *text, size_t room,
                             size_t *needed)
{
    size_t half = subject->job.length / 2;
    const uint8_t *bytes = subject->job.bytes;
    uint32_t fed;

    pclcheck_session_feed(&subject->fleet, first, bytes, half);
    fed = pclcheck_session_feed(&subject->fleet, all, bytes, subject->job.length);
    pclcheck_session_feed(&subject->fleet, first, bytes + half, subject->job.length - half);
    return fed == PCLCHECK_MEMORY ? fed : tell_end(subject, first, text, room, needed);
}

static uint32_t tell_second(struct subject *subject, uint8_t *text, size_t room, size_t *needed)
{
    struct pclcheck_session all = {0}, first = {0};
    uint32_t answer = pclcheck_session_new(&subject->fleet, 0, &all);

    if (answer != PCLCHECK_DONE)
        return answer;
    answer = pclcheck_session_new(&subject->fleet, 1, &first);
    if (answer == PCLCHECK_DONE) {
        answer = tell_between(subject, &all, &first, text, room, needed);
        pclcheck_session_free(&first);
    }
    pclcheck_session_free(&all);
    return answer;
}

static uint32_t tell_bytes(struct subject *subject, uint8_t *text, size_t room, size_t *needed)
{
    return tell_pieces(subject, 1, text, room, needed);
}

static uint32_t tell_sevens(struct subject *subject, uint8_t *text, size_t room, size_t *needed)
{
    return tell_pieces(subject, 7, text, room, needed);
}

static uint32_t tell_blocks(struct subject *subject, uint8_t *text, size_t room, size_t *needed)
{
    return tell_pieces(subject, 4096, text, room, needed);
}

/* On the first printer alone, where macros may carry out so few items. */
static uint32_t tell_limited(struct subject *subject, uint8_t *text, size_t room, size_t *needed)
{
    struct pclcheck_fleet fleet = {0};
    uint32_t answer = pclcheck_fleet_new(&fleet);

    if (answer != PCLCHECK_DONE)
        return answer;
    pclcheck_fleet_limit(&fleet, 10);
    answer = pclcheck_fleet_add(&fleet, subject->profiles[0].bytes, subject->profiles[0].length,
                                &subject->refusal);
    if (answer == PCLCHECK_DONE)
        answer = pclcheck_tell(&fleet, 0, subject->name.bytes, subject->name.length,
                               subject->job.bytes, subject->job.length, &subject->verdict, text,
                               room, needed);
    pclcheck_fleet_free(&fleet);
    return answer;
}

static uint32_t list(struct subject *subject, uint8_t *text, size_t room, size_t *needed)
{
    return pclcheck_list(subject->job.bytes, subject->job.length, &subject->verdict, text, room,
                         needed);
}

static uint32_t plain(struct subject *subject, uint8_t *text, size_t room, size_t *needed)
{
    return pclcheck_plain(subject->job.bytes, subject->job.length, &subject->verdict, text, room,
                          needed);
}

static uint32_t notes(struct subject *subject, uint8_t *text, size_t room, size_t *needed)
{
    return pclcheck_notes(subject->profiles[0].bytes, subject->profiles[0].length,
                          subject->job.bytes, subject->job.length, &subject->refusal,
                          &subject->verdict, text, room, needed);
}

static uint32_t pages(struct subject *subject, uint8_t *text, size_t room, size_t *needed)
{
    return pclcheck_pages(subject->profiles[0].bytes, subject->profiles[0].length,
                          subject->job.bytes, subject->job.length, &subject->refusal,
                          &subject->verdict, text, room, needed);
}

static uint32_t picture_of(struct subject *subject, uint64_t page, uint8_t *text, size_t room,
                           size_t *needed)
{
    return pclcheck_picture(subject->profiles[0].bytes, subject->profiles[0].length,
                            subject->name.bytes, subject->name.length, page, subject->job.bytes,
                            subject->job.length, &subject->refusal, text, room, needed);
}

/* The name is no UTF-8. */
static uint32_t unnamed(struct subject *subject, uint8_t *text, size_t room, size_t *needed)
{
    static const uint8_t NO_TEXT[] = {'a', 0xff};

    return pclcheck_picture(subject->profiles[0].bytes, subject->profiles[0].length, NO_TEXT,
                            sizeof NO_TEXT, 1, subject->job.bytes, subject->job.length,
                            &subject->refusal, text, room, needed);
}

static uint32_t all_pages(struct subject *subject, uint8_t *text, size_t room, size_t *needed)
{
    return picture_of(subject, 0, text, room, needed);
}

static uint32_t one_page(struct subject *subject, uint8_t *text, size_t room, size_t *needed)
{
    return picture_of(subject, subject->page, text, room, needed);
}

static uint32_t pin_to(struct subject *subject, const struct pclcheck_panel_value *values,
                       size_t count, uint8_t *text, size_t room, size_t *needed)
{
    return pclcheck_pin(subject->profiles[0].bytes, subject->profiles[0].length, values, count,
                        subject->job.bytes, subject->job.length, &subject->refusal,
                        &subject->verdict, text, room, needed);
}

static uint32_t pin(struct subject *subject, uint8_t *text, size_t room, size_t *needed)
{
    static const struct pclcheck_panel_value NONE[1];

    return pin_to(subject, NONE, 0, text, room, needed);
}

static uint32_t pin_chosen(struct subject *subject, uint8_t *text, size_t room, size_t *needed)
{
    return pin_to(subject, subject->values, subject->value_count, text, room, needed);
}

static uint32_t pin_nothing(struct subject *subject, uint8_t *text, size_t room, size_t *needed)
{
    static const struct pclcheck_panel_value NO_FIELD[] = {{9, 1}};

    return pin_to(subject, NO_FIELD, 1, text, room, needed);
}

const struct call CALLS[] = {
    {"version", version}, {"explain", explain}, {"unheard", unheard},
    {"printer-name", printer_name}, {"faults", faults}, {"lint", lint}, {"check", check},
    {"tell", tell}, {"tell-first", tell_first}, {"tell-last", tell_last},
    {"tell-none", tell_none}, {"pieces-1", tell_bytes}, {"pieces-7", tell_sevens},
    {"pieces-4096", tell_blocks}, {"second", tell_second}, {"limit-10", tell_limited},
    {"list", list}, {"plain", plain}, {"notes", notes}, {"pages", pages},
    {"picture-all", all_pages}, {"picture-one", one_page}, {"unnamed", unnamed}, {"pin", pin},
    {"pin-chosen", pin_chosen}, {"pin-nothing", pin_nothing}
};
const size_t CALL_COUNT = sizeof CALLS / sizeof *CALLS;
