/* What a run says at its end: refusals, warnings and failures on the error output, then the table. */
#include "compile.h"
#include "or_gnu.h"

#include <errno.h>
#include <stdlib.h>
#include <string.h>

enum status status_of(const struct run *run) {
    enum status status = DONE;
    for (size_t place = 0; place < run->catalogues.count; place++) {
        enum outcome outcome = run->catalogues.at[place].outcome;
        if (outcome == IS_UNREAD || outcome == IS_UNWRITTEN)
            return TROUBLE;
        if (outcome == IS_REFUSED)
            status = REFUSED;
    }
    return status;
}

/* The line of `msgfmt --statistics`, after the PO file's name. */
static void tell_counts(const struct catalogue *it) {
    char line[COUNTS_SIZE];
    write_counts(line, it->counts);
    tell("%s: %s", it->po, line);
}

static void tell_warnings(const struct catalogue *it) {
    for (unsigned place = 0; place < FIELD_COUNT; place++)
        if (it->missing & 1u << place)
            tell("%s:%u: warning: header field '%s' missing", it->po, it->header_line, fields[place]);
}

static void tell_trouble(const struct catalogue *it) {
    switch (it->outcome) {
    case IS_REFUSED:
        if (it->line)
            tell("%s:%u: %s", it->po, it->line, it->why);
        else
            tell("%s: %s", it->po, it->why);
        for (size_t place = 1; place < it->formats.count; place++)
            tell("%s:%u: %s", it->po, it->formats.at[place].line, it->formats.at[place].why);
        break;
    case IS_UNREAD: tell("kob-compile: cannot read %s: %s", it->po, it->why); break;
    case IS_UNWRITTEN: tell("kob-compile: cannot write %s: %s", it->mo, it->why); break;
    default: break;
    }
}

void report_counts(const struct run *run) {
    const struct catalogues *all = &run->catalogues;
    for (size_t place = 0; place < all->count; place++)
        if (all->at[place].outcome == IS_COMPILED) {
            tell_warnings(&all->at[place]);
            if (run->options.wants_statistics)
                tell_counts(&all->at[place]);
        }
    if (!run->options.is_quiet && !run->options.wants_json) {
        print_table(run, stdout);
        print_summary(run, stdout);
        fflush(stdout);
    }
}

void report_troubles(const struct run *run) {
    const struct catalogues *all = &run->catalogues;
    size_t lacking = 0;
    for (size_t place = 0; place < all->count; place++) {
        if (all->at[place].is_kept) /* (which was told then) */
            continue;
        tell_trouble(&all->at[place]);
        lacking += all->at[place].lacks_gnu;
    }
    if (lacking)
        tell("kob-compile: GNU msgfmt may compile %zu of these, and there is none on the PATH; it is in the package gettext",
             lacking);
    report_gnu_failure();
}
