/* A printer application: takes jobs of PCL 5 by IPP, and hands those to a printer that each
   printer of the queue's fleet prints. A job that fails is aborted, and the sentence that says why
   is its job-state-message. */
#define _GNU_SOURCE
#include "gate.h"

#include <fcntl.h>
#include <getopt.h>
#include <pappl/pappl.h>
#include <stdio.h>
#include <stdlib.h>
#include <string.h>
#include <unistd.h>

static const char FORMAT[] = "application/vnd.hp-PCL";
static const char DRIVER[] = "pcl5";
enum { DOTS_AN_INCH = 300, PAGES_A_MINUTE = 20 };

static const char USAGE[] =
    "Usage: pclprinter [-h HOST] [-p PORT] [-s FOLDER] [-l LOG] [--any-language] QUEUE=DEVICE ..\n"
    "\n"
    "Takes jobs of PCL 5 at ipp://HOST:PORT/ipp/print/QUEUE, checks each for the printers of\n"
    "/etc/pclcheck/QUEUE.fleet, and hands it to DEVICE, as socket://10.0.0.7:9100, where it\n"
    "passes.\n"
    "\n"
    "  -h HOST    the name by which it listens (localhost); * for all\n"
    "  -p PORT    the port (8631)\n"
    "  -s FOLDER  where jobs are kept until they are printed (/var/spool/pclprinter)\n"
    "  -l LOG     a file for messages; - for standard error (-)\n"
    "  --any-language  a job that is PostScript, PDF or PCL XL, or turns to one of them, is\n"
    "             checked as PCL, too, in place of being aborted\n"
    "\n"
    "PCLCHECK_FLEETS names another folder of fleets.\n";

/* ---- a job */

static bool abort_job(pappl_job_t *job, const char *sentence)
{
    papplJobSetMessage(job, "preflight: %s", sentence);
    papplJobSetReasons(job, PAPPL_JREASON_DOCUMENT_UNPRINTABLE_ERROR, PAPPL_JREASON_NONE);
    papplLogJob(job, PAPPL_LOGLEVEL_ERROR, "preflight: %s", sentence);
    return false;
}

/* A job on its way to the printer. */
struct way {
    pappl_job_t *job;
    pappl_device_t *device;
};

static bool put(void *to, const unsigned char *bytes, size_t length)
{
    struct way *way = to;
    size_t sent = 0;

    while (sent < length && !papplJobIsCanceled(way->job)) {
        ssize_t written = papplDeviceWrite(way->device, bytes + sent, length - sent);
        if (written <= 0)
            return false;
        sent += (size_t)written;
    }
    return sent == length;
}

static bool is_cancelled(void *job)
{
    return papplJobIsCanceled(job);
}

static bool send_all(struct way *way, int spool, unsigned copies)
{
    bool is_sent = gate_pass(spool, copies, put, way);

    papplDeviceFlush(way->device);
    if (is_sent || papplJobIsCanceled(way->job))
        return true;
    return abort_job(way->job, "the printer took only a part of the job");
}

/* Checks what the printer gets, all copies as one stream, and sends it where it passes. */
static bool check_and_send(struct way *way, struct pclcheck_fleet *fleet,
                           const struct gate_job *job)
{
    char sentence[1024];
    bool is_sent;
    int spool;

    if (gate_check(fleet, job, &spool, sentence, sizeof sentence) != GATE_PASSES)
        return abort_job(way->job, sentence);
    papplLogJob(way->job, PAPPL_LOGLEVEL_INFO, "preflight: %s", sentence);
    is_sent = send_all(way, spool, job->copies);
    close(spool);
    return is_sent;
}

/* The profiles are read for each job, so that one that was changed counts at once. */
static bool print_job(pappl_job_t *job, pappl_pr_options_t *options, pappl_device_t *device)
{
    struct pclcheck_fleet fleet;
    struct way way = {job, device};
    struct gate_job checked = {.copies = options->copies > 1 ? (unsigned)options->copies : 1,
                               .is_cancelled = is_cancelled, .job = job};
    char cause[1024];
    bool is_printed = false;

    if (!gate_open(papplPrinterGetName(papplJobGetPrinter(job)), &fleet, cause, sizeof cause))
        return abort_job(job, cause);
    checked.file = open(papplJobGetFilename(job), O_RDONLY | O_CLOEXEC);
    if (checked.file < 0) {
        abort_job(job, "the job could not be read");
    } else {
        is_printed = check_and_send(&way, &fleet, &checked);
        close(checked.file);
    }
    pclcheck_fleet_free(&fleet);
    return is_printed;
}

/* ---- jobs that are pictures, which a printer of this framework has to be able to refuse */

static bool refuse_job(pappl_job_t *job, pappl_pr_options_t *options, pappl_device_t *device)
{
    (void)options;
    (void)device;
    return abort_job(job, "this queue takes application/vnd.hp-PCL alone");
}

static bool refuse_page(pappl_job_t *job, pappl_pr_options_t *options, pappl_device_t *device,
                        unsigned page)
{
    (void)page;
    return refuse_job(job, options, device);
}

static bool refuse_line(pappl_job_t *job, pappl_pr_options_t *options, pappl_device_t *device,
                        unsigned row, const unsigned char *line)
{
    (void)line;
    return refuse_page(job, options, device, row);
}

/* ---- the printer */

/* PCL has no first bytes of its own: what the framework does not know is PCL, and is checked. */
static const char *type_of(const unsigned char *header, size_t length, void *data)
{
    (void)header;
    (void)length;
    (void)data;
    return FORMAT;
}

static void set_media(pappl_pr_driver_data_t *driver)
{
    static const pappl_media_col_t LETTER = {
        .size_name = "na_letter_8.5x11in", .size_width = 21590, .size_length = 27940,
        .source = "auto", .type = "stationery"
    };

    driver->media[driver->num_media++] = LETTER.size_name;
    driver->media[driver->num_media++] = "iso_a4_210x297mm";
    driver->source[driver->num_source++] = LETTER.source;
    driver->type[driver->num_type++] = LETTER.type;
    driver->media_default = driver->media_ready[0] = LETTER;
}

/* What the framework wants to know of a printer; of a job of PCL the job itself chooses. */
static bool set_driver(pappl_system_t *system, const char *name, const char *uri, const char *id,
                       pappl_pr_driver_data_t *driver, ipp_t **attributes, void *data)
{
    (void)system;
    (void)uri;
    (void)id;
    (void)attributes;
    (void)data;
    if (strcmp(name, DRIVER) != 0)
        return false;
    papplCopyString(driver->make_and_model, "PCL 5 printer behind a check",
                    sizeof driver->make_and_model);
    driver->format = FORMAT;
    driver->printfile_cb = print_job;
    driver->rstartjob_cb = refuse_job;
    driver->rendjob_cb = refuse_job;
    driver->rstartpage_cb = refuse_page;
    driver->rendpage_cb = refuse_page;
    driver->rwriteline_cb = refuse_line;
    driver->ppm = PAGES_A_MINUTE;
    driver->raster_types = PAPPL_PWG_RASTER_TYPE_BLACK_1;
    driver->color_supported = driver->color_default = PAPPL_COLOR_MODE_MONOCHROME;
    driver->sides_supported = driver->sides_default = PAPPL_SIDES_ONE_SIDED;
    driver->num_resolution = 1;
    driver->x_resolution[0] = driver->y_resolution[0] = DOTS_AN_INCH;
    driver->x_default = driver->y_default = DOTS_AN_INCH;
    set_media(driver);
    return true;
}

/* ---- the application */

struct words {
    const char *host;
    int port;
    const char *spool;
    const char *log;
};

/* Adds the printer of a word QUEUE=DEVICE. */
static bool add_printer(pappl_system_t *system, const char *word)
{
    const char *device = strchr(word, '=');
    char queue[128];

    if (device == NULL || (size_t)(device - word) >= sizeof queue)
        return false;
    papplCopyString(queue, word, (size_t)(device - word) + 1);
    return papplPrinterCreate(system, 0, queue, DRIVER, NULL, device + 1) != NULL;
}

/* There are no pages for browsers: in PAPPL 1.3 some of them end the process. */
static int run(const struct words *words, int count, char *queues[])
{
    static pappl_pr_driver_t drivers[] = {{DRIVER, "PCL 5 printer behind a check", NULL, NULL}};
    pappl_system_t *system = papplSystemCreate(
        PAPPL_SOPTIONS_MULTI_QUEUE, "pclprinter", words->port, "_print,_universal", words->spool,
        words->log, PAPPL_LOGLEVEL_INFO, NULL, false);

    if (system == NULL)
        return EXIT_FAILURE;
    papplSystemAddListeners(system, strcmp(words->host, "*") == 0 ? NULL : words->host);
    papplSystemSetMIMECallback(system, type_of, NULL);
    papplSystemSetPrinterDrivers(system, 1, drivers, NULL, NULL, set_driver, NULL);
    for (int at = 0; at < count; at++) {
        if (!add_printer(system, queues[at])) {
            fprintf(stderr, "pclprinter: there can be no queue %s\n", queues[at]);
            papplSystemDelete(system);
            return EXIT_FAILURE;
        }
    }
    papplSystemRun(system);
    papplSystemDelete(system);
    return EXIT_SUCCESS;
}

int main(int argc, char *argv[])
{
    static const struct option LONG[] = {{"any-language", no_argument, NULL, 'a'}, {0}};
    struct words words = {"localhost", 8631, "/var/spool/pclprinter", "-"};
    int option;

    while ((option = getopt_long(argc, argv, "h:p:s:l:", LONG, NULL)) != -1) {
        switch (option) {
        case 'h': words.host = optarg; break;
        case 'p': words.port = atoi(optarg); break;
        case 's': words.spool = optarg; break;
        case 'l': words.log = optarg; break;
        case 'a': setenv("PCLCHECK_ANY_LANGUAGE", "print", 1); break;
        default: optind = argc; break;
        }
    }
    if (optind >= argc || words.port < 1) {
        fputs(USAGE, stderr);
        return 2;
    }
    return run(&words, argc - optind, argv + optind);
}
