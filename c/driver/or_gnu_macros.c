/* Compiling a text with system-dependent strings by libkobdzila, with all that msgfmt would print. */
#include "or_gnu_macros.h"
#include "kobdzila.h"
#include "replace.h"
#include "said.h"

#include <errno.h>
#include <stdio.h>
#include <stdlib.h>
#include <string.h>
#include <sys/stat.h>
#include <unistd.h>

#pragma weak kob_open_po
#pragma weak kob_mo_file
#pragma weak kob_release
#pragma weak kob_fault_text

static kob_catalogue *open_text(const struct macro_text *text, kob_refusal *why) {
    unsigned how = (text->checked ? KOB_CHECKED : 0) | (text->keeps_fuzzy ? KOB_USE_FUZZY : 0) | KOB_WITHOUT_INDEX;
    kob_catalogue *made = kob_open_po(text->text.at, (size_t)(text->text.end - text->text.at), how, why);
    if (!made && why->fault == KOB_MEMORY)
        stop_for_memory();
    return made;
}

/* Return the mode of a new file. */
static mode_t mode_of_file(void) {
    mode_t mask = umask(0);
    umask(mask);
    return 0666 & ~mask;
}

/* Write the MO file. Returns 0, or the errno of why it can't be written. */
static int write_made(kob_text file, const char *output, int standard_output) {
    if (strcmp(output, "-"))
        return write_where_allowed(output, file.at, file.len, mode_of_file());
    return write_all(standard_output < 0 ? STDOUT_FILENO : standard_output, file.at, file.len) ? 0 : errno;
}

/* Return a line for each field that the header lacks, and the statistics. */
static char *lines_of(const struct macro_text *text, const kob_catalogue *made) {
    char counts[COUNTS_SIZE], *lines = NULL;
    size_t len;
    FILE *to = open_memstream(&lines, &len);
    unsigned missing = text->checked ? missing_fields(made) : 0;
    for (unsigned place = 0; to && place < FIELD_COUNT; place++)
        if (missing & 1u << place)
            fprintf(to, "%s:%llu: warning: header field '%s' missing\n", text->name, text->header_line, fields[place]);
    write_counts(counts, statistics_of(made));
    if (!to || fprintf(to, "%s\n", counts) < 0 || fclose(to))
        stop_for_memory();
    return lines;
}

struct answer compile_macros(const struct macro_text *text, const char *output, int standard_output) {
    struct answer answer = {0};
    kob_refusal why;
    kob_catalogue *made = open_text(text, &why);
    if (made && text->has_gnu && left_macros(made) > text->plain_macros) {
        kob_release(made);
        made = NULL;
        why = (kob_refusal){KOB_PO_SYSTEM_DEPENDENT, 0};
    }
    if (!made) {
        answer.ending.status = 1;
        answer.said = text_of("%s:%u: %s\n", text->name, why.line, kob_fault_text(why.fault));
    } else {
        answer.ending.cause = write_made(kob_mo_file(made), output, standard_output);
        answer.ending.status = answer.ending.cause != 0;
        answer.said = answer.ending.cause ? text_of("msgfmt: cannot write %s\n", output) : lines_of(text, made);
        kob_release(made);
    }
    answer.len = strlen(answer.said);
    return answer;
}
