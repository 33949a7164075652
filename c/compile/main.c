/* kob-compile: compiles all PO files of a project at once, with libkobdzila. See kob-compile(1). */
#include "compile.h"
#include "or_gnu.h"

#include <malloc.h>
#include <signal.h>
#include <stdlib.h>
#include <string.h>
#include <sys/stat.h>
#include <unistd.h>

const char program_name[] = "kob-compile";
volatile sig_atomic_t stopped_by;
const int ending_signals[] = {SIGHUP, SIGINT, SIGQUIT, SIGTERM, 0};

void stop_for_memory(void) {
    tell("kob-compile: out of memory");
    _exit(TROUBLE);
}

/* ---- signals */

/* (the next one, of whatever number, isn't noted any more) */
static void note_signal(int noted) {
    stopped_by = noted;
    for (const int *number = ending_signals; *number; number++) {
        struct sigaction now;
        if (sigaction(*number, NULL, &now) == 0 && now.sa_handler == note_signal)
            signal(*number, SIG_DFL);
    }
}

/* A signal that would end the program lets the files that are being written end first; a second one ends it at once. A
 * signal that is ignored (nohup) stays ignored. A file that is too large is an error of its own. */
static void take_signals(void) {
    for (const int *number = ending_signals; *number; number++) {
        struct sigaction now, noting = {.sa_handler = note_signal};
        if (sigaction(*number, NULL, &now) == 0 && now.sa_handler == SIG_DFL)
            sigaction(*number, &noting, NULL);
    }
    signal(SIGXFSZ, SIG_IGN);
}

/* End as the signal would have ended the program. */
static void end_by_signal(void) {
    signal(stopped_by, SIG_DFL);
    raise(stopped_by);
}

/* ---- a run */

/* Whether the environment names a locale in UTF-8. */
static bool speaks_utf8(void) {
    static const char *const names[] = {"LC_ALL", "LC_CTYPE", "LANG"};
    for (size_t place = 0; place < sizeof names / sizeof *names; place++) {
        const char *locale = getenv(names[place]);
        if (locale && *locale)
            return strcasestr(locale, "utf-8") || strcasestr(locale, "utf8");
    }
    return false;
}

/* GNU msgfmt is to answer in English; the locale matters to nothing else here but the bars. */
static void take_environment(struct run *run) {
    mode_t masked = umask(0);
    umask(masked);
    run->mode = 0666 & ~masked;
    run->has_blocks = speaks_utf8();
    if (setenv("LC_ALL", "C", 1) < 0)
        stop_for_memory();
    /* (blocks of one text serve for the next, without the system) */
    mallopt(M_MMAP_THRESHOLD, 1 << 25);
    mallopt(M_TRIM_THRESHOLD, 1 << 26);
}

enum status print_for_machines(const struct run *run, enum status status) {
    if (run->options.wants_json)
        print_json(run, stdout, status);
    if (fflush(stdout) != 0 || ferror(stdout)) { /* (the table may have failed before) */
        tell("kob-compile: cannot write standard output");
        status = TROUBLE;
    }
    if (run->options.sarif && !write_sarif(run))
        status = TROUBLE;
    return status;
}

static enum status compile_once(struct run *run) {
    enum status found = find_catalogues(run, NULL);
    if (found == USAGE)
        return USAGE;
    if (run->catalogues.count == 0 && found == DONE && !stopped_by) {
        tell("kob-compile: no PO file found; name a folder or files");
        return USAGE;
    }
    compile_all(run);
    report_counts(run);
    report_troubles(run);
    enum status status = status_of(run);
    return print_for_machines(run, status > found ? status : found);
}

int main(int count, char **words) {
    struct run run = {0};
    enum status status;
    clock_gettime(CLOCK_MONOTONIC, &run.start);
    if (!read_options(&run.options, count, words, &status))
        return status;
    take_environment(&run);
    keep_signal_mask();
    take_signals();
    status = run.options.watches ? watch(&run) : compile_once(&run);
    free_catalogues(&run.catalogues);
    free(run.options.excluded);
    if (stopped_by && !run.options.watches)
        end_by_signal();
    return status;
}
