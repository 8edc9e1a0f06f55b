/* pclcheck: checks print jobs of PCL 5 for printers, before a sheet is printed. See pclcheck(3).
 *
 * A call allocates by malloc(), and before it returns it frees all that it allocated; what a
 * fleet or a session holds the caller frees, by pclcheck_fleet_free() and pclcheck_session_free().
 * No call keeps a pointer behind its end, prints, or ends the program, and nothing is kept between
 * calls but what these hold. So calls of several threads are safe whose fleets, sessions and
 * memory are their own.
 *
 * No pointer may be NULL. Where a length stands behind it, so many bytes or values lie there, and
 * of none any other pointer serves. What a call writes to overlaps nothing else that it is given.
 *
 * A text goes into the `room` bytes at `text`, and its length into `*needed`. Where the room is
 * too short the answer is PCLCHECK_ROOM: nothing is written into it, and `*needed` says how long
 * it has to be. Behind the text the room stays as it was; no zero byte ends it. After any other
 * answer than PCLCHECK_DONE and PCLCHECK_ROOM the room, `*needed` and `*verdict` are as they
 * were. `*refusal` is written where the answer is PCLCHECK_REFUSED alone. */
#ifndef PCLCHECK_H
#define PCLCHECK_H

#include <stddef.h>
#include <stdint.h>

#ifdef __cplusplus
extern "C" {
#endif

/* ---- what calls answer */

#define PCLCHECK_DONE 0        /* what was asked for is done */
#define PCLCHECK_ROOM 1        /* the room is too short for the text */
#define PCLCHECK_MEMORY 2      /* a request for memory was refused */
#define PCLCHECK_LONG 3        /* the job has more than 2^52 bytes */
#define PCLCHECK_NO_PRINTER 4  /* the fleet has no printer, or none of this number */
#define PCLCHECK_STOPPED 5     /* work stopped for another cause; it does not happen */
#define PCLCHECK_REFUSED 6     /* the text of a profile is refused */
#define PCLCHECK_NOT_ALLOWED 7 /* the panel of the printer may not have a value that is chosen */
#define PCLCHECK_NO_FIELD 8    /* a value is chosen for what is no field of the panel */
#define PCLCHECK_NO_PAGE 9     /* the job does not have this page */
#define PCLCHECK_UNKNOWN 10    /* nothing has this code, or a name is no UTF-8 */
#define PCLCHECK_ITEMS 11      /* macros would carry out more items than the fleet allows */
#define PCLCHECK_JUDGED 12     /* what a session was fed decides the verdict, whatever follows */

/* ---- what crosses beside texts */

/* What came of a job. */
struct pclcheck_verdict {
    uint64_t pages;   /* of a job that passes a check the number of its pages; 0 of any other */
    uint64_t marks;   /* of a job that passes a check the number of its marks; 0 of any other */
    uint64_t place;   /* where the job fails, in bytes from its start */
    uint64_t printer; /* the number of the printer that it fails for, from 1; 0 for its bytes */
    uint64_t page;    /* of a job that fails a check the page, from 1; 0 of any other */
    uint32_t number;  /* of the fault or finding by which it fails; 0 where it does not */
};

/* The text of a profile that is refused. */
struct pclcheck_refusal {
    uint64_t number;  /* the number of the profile in its fleet, from 1 */
    uint64_t line;    /* the line that is wrong, from 1; 0 for the text as a whole */
    uint32_t cause;   /* 1 Version, 2 Unknown, 3 Repeated, 4 Range, 5 Missing, 6 NoGeometry */
};

/* A value that is chosen at a panel. */
struct pclcheck_panel_value {
    uint32_t field;   /* 1 size, 2 orientation, 3 vmi, 4 font, 5 copies, 6 sides, 7 tray,
                         8 lineterm */
    uint32_t value;   /* the VMI in ten-thousandths of 1/48 inch; else as its command numbers it */
};

/* A fleet of printers, or none: zero bytes are none. Every call but pclcheck_fleet_new() needs a
 * fleet: of none it may end the program, so it is freed once. The caller changes nothing in it, and
 * copies it only to leave the first one unused. */
struct pclcheck_fleet {
    void *at;
};

/* A check of a job that comes in pieces, or none: as a fleet. */
struct pclcheck_session {
    void *at;
};

/* ---- the library, and what its numbers mean */

/* Puts the version of the library, as 0.1.0.
 *
 * Answers: DONE, ROOM. */
uint32_t pclcheck_version(uint8_t *text, size_t room, size_t *needed);

/* Puts what is known of a code, as `pclcheck explain CODE` writes it: the number or the name of a
 * fault, a finding or a note, or both as a line has them, or a command by its key, its spelling,
 * its bytes in a job behind ESC or its name; of the code `commands` a list of the commands, and of
 * an empty code all explanations.
 *
 * Answers: DONE, ROOM, MEMORY, UNKNOWN where nothing has this number or name. */
uint32_t pclcheck_explain(const uint8_t *code, size_t code_length, uint8_t *text, size_t room,
                          size_t *needed);

/* Puts the name that the text of a profile gives its printer, which sentences have; nothing where
 * it gives none.
 *
 * Answers: DONE, ROOM. */
uint32_t pclcheck_printer_name(const uint8_t *profile, size_t profile_length, uint8_t *text,
                               size_t room, size_t *needed);

/* Puts all that is wrong with the text of a profile, as `pclcheck profile lint` writes it: a line
 * for each fault, with its line in the text and the rule in words. The lines begin with this name
 * of the text. Of a profile there is nothing wrong, and nothing is put.
 *
 * Answers: DONE, ROOM, MEMORY. */
uint32_t pclcheck_faults(const uint8_t *name, size_t name_length, const uint8_t *profile,
                         size_t profile_length, uint8_t *text, size_t room, size_t *needed);

/* ---- fleets */

/* Makes a fleet of no printer, in place of none: *fleet is of zero bytes, or was freed.
 *
 * Answers: DONE, MEMORY, and then there is still none. */
uint32_t pclcheck_fleet_new(struct pclcheck_fleet *fleet);

/* Limits how many items of a job macros may carry out on the printers that are added from here on,
 * as `pclcheck check --most-items` does. A job that passes the limit has no verdict: checks answer
 * ITEMS. */
void pclcheck_fleet_limit(struct pclcheck_fleet *fleet, uint64_t most_items);

/* Adds the printer that the text of a profile describes. The printers of a fleet count from 1, in
 * the order in which they were added.
 *
 * Answers: DONE, REFUSED where the text is no profile, MEMORY; after these two the fleet is as it
 * was. */
uint32_t pclcheck_fleet_add(struct pclcheck_fleet *fleet, const uint8_t *profile,
                            size_t profile_length, struct pclcheck_refusal *refusal);

/* Frees a fleet, and leaves none. */
void pclcheck_fleet_free(struct pclcheck_fleet *fleet);

/* ---- checks */

/* Checks a job for all printers of a fleet, as `pclcheck check` does, or where `printer` is not 0
 * for the one of this number by itself, as `pclcheck check --each` does; by itself a printer has
 * the number 1 in the verdict. A verdict of number 0 is PASS.
 *
 * Answers: DONE, MEMORY, NO_PRINTER where the fleet has none of this number, ITEMS, LONG. */
uint32_t pclcheck_check(struct pclcheck_fleet *fleet, size_t printer, const uint8_t *job,
                        size_t job_length, struct pclcheck_verdict *verdict);

/* Checks a job as pclcheck_check() does, and puts the sentence of `pclcheck check --format words`
 * on it with its line end, which begins with this name of the job.
 *
 * Answers: DONE, ROOM, MEMORY, NO_PRINTER, ITEMS, LONG. */
uint32_t pclcheck_tell(struct pclcheck_fleet *fleet, size_t printer, const uint8_t *name,
                       size_t name_length, const uint8_t *job, size_t job_length,
                       struct pclcheck_verdict *verdict, uint8_t *text, size_t room,
                       size_t *needed);

/* ---- a job in pieces */

/* Begins a check of a job that comes in pieces, for all printers of a fleet or the one of this
 * number by itself, as pclcheck_check() does. It stands in place of none: *session is of zero
 * bytes, or was freed. Until it is freed the fleet stays, and no printer is added to it. A fleet
 * may have any number of sessions.
 *
 * Answers: DONE, MEMORY, NO_PRINTER; after these two there is still none. */
uint32_t pclcheck_session_new(struct pclcheck_fleet *fleet, size_t printer,
                              struct pclcheck_session *session);

/* Takes the next piece of the job, of any length, for the fleet with which the session began.
 * What is kept of a job does not grow with it.
 *
 * Answers: DONE while nothing is wrong, JUDGED once the verdict is certain, whatever follows,
 * MEMORY and LONG, which end the check. After these three a piece changes nothing. */
uint32_t pclcheck_session_feed(struct pclcheck_fleet *fleet, struct pclcheck_session *session,
                               const uint8_t *piece, size_t piece_length);

/* Ends the job, and tells the verdict on what was fed, whole. A call behind that tells it again.
 *
 * Answers: DONE, MEMORY, ITEMS, LONG. */
uint32_t pclcheck_session_end(struct pclcheck_fleet *fleet, struct pclcheck_session *session,
                              struct pclcheck_verdict *verdict);

/* Ends the job as pclcheck_session_end() does, and puts the sentence on it with its line end,
 * which begins with this name of the job. A call behind that, with more room, puts it again.
 *
 * Answers: DONE, ROOM, MEMORY, ITEMS, LONG. */
uint32_t pclcheck_session_tell(struct pclcheck_fleet *fleet, struct pclcheck_session *session,
                               const uint8_t *name, size_t name_length,
                               struct pclcheck_verdict *verdict, uint8_t *text, size_t room,
                               size_t *needed);

/* Frees a session, be it ended or not, and leaves none. */
void pclcheck_session_free(struct pclcheck_session *session);

/* ---- texts of a job */

/* Puts a line for each item of a job, as `pclcheck list` writes it. The verdict tells the fault
 * by which it ends.
 *
 * Answers: DONE, ROOM, MEMORY, LONG. */
uint32_t pclcheck_list(const uint8_t *job, size_t job_length, struct pclcheck_verdict *verdict,
                       uint8_t *text, size_t room, size_t *needed);

/* Puts the items of a job, each in its canonical spelling, as `pclcheck plain` writes it into
 * OUT. The verdict tells the fault by which they end.
 *
 * Answers: DONE, ROOM, MEMORY, LONG. */
uint32_t pclcheck_plain(const uint8_t *job, size_t job_length, struct pclcheck_verdict *verdict,
                        uint8_t *text, size_t room, size_t *needed);

/* Puts what a job leaves to the printer of a profile, as `pclcheck notes` writes it: a line for
 * each note, and last the line of what the job fails by, which the verdict tells too.
 *
 * Answers: DONE, ROOM, REFUSED, MEMORY, LONG. */
uint32_t pclcheck_notes(const uint8_t *profile, size_t profile_length, const uint8_t *job,
                        size_t job_length, struct pclcheck_refusal *refusal,
                        struct pclcheck_verdict *verdict, uint8_t *text, size_t room,
                        size_t *needed);

/* Puts the pages of a job on the printer of a profile, as `pclcheck pages` writes them: a line
 * for each mark and each end of a page, and last the line of what the job fails by, which the
 * verdict tells too.
 *
 * Answers: DONE, ROOM, REFUSED, MEMORY, LONG. */
uint32_t pclcheck_pages(const uint8_t *profile, size_t profile_length, const uint8_t *job,
                        size_t job_length, struct pclcheck_refusal *refusal,
                        struct pclcheck_verdict *verdict, uint8_t *text, size_t room,
                        size_t *needed);

/* Puts the picture of the page of this number, from 1, of a job on the printer of a profile, as
 * SVG, or for 0 all pages in a document of HTML: what `pclcheck picture` writes. Sentences in it
 * have this name of the job, which is UTF-8.
 *
 * Answers: DONE, ROOM, REFUSED, NO_PAGE, MEMORY, LONG, UNKNOWN where the name is no UTF-8. */
uint32_t pclcheck_picture(const uint8_t *profile, size_t profile_length, const uint8_t *name,
                          size_t name_length, uint64_t page, const uint8_t *job,
                          size_t job_length, struct pclcheck_refusal *refusal, uint8_t *text,
                          size_t room, size_t *needed);

/* Puts a job pinned to the panel of the printer of a profile, as `pclcheck pin` writes it into
 * OUT: from its first panel, but for the values that are chosen. The verdict tells by what it
 * ends too early.
 *
 * Answers: DONE, ROOM, REFUSED, NO_FIELD, NOT_ALLOWED, MEMORY, LONG. */
uint32_t pclcheck_pin(const uint8_t *profile, size_t profile_length,
                      const struct pclcheck_panel_value *values, size_t values_length,
                      const uint8_t *job, size_t job_length, struct pclcheck_refusal *refusal,
                      struct pclcheck_verdict *verdict, uint8_t *text, size_t room,
                      size_t *needed);

#ifdef __cplusplus
}
#endif

#endif
