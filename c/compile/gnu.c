/* GNU msgfmt as the last resort: what Kobdzila refuses is given to it, as msgfmt-or-gnu does. */
#include "compile.h"
#include "or_gnu.h"

#include <errno.h>
#include <fcntl.h>
#include <pthread.h>
#include <stdlib.h>
#include <string.h>
#include <unistd.h>

static pthread_once_t looked = PTHREAD_ONCE_INIT;
static char *gnu;
static atomic_int failure;  /* the errno of why it couldn't be looked for or run, or 0 */
static atomic_int ended_by; /* the signal that ended it, or 0 */

static void look_for_gnu(void) {
    gnu = find_gnu(NULL);
    if (!gnu)
        failure = errno;
}

/* Read the counts from `1 translated message, 2 fuzzy translations, 3 untranslated messages.` */
static void take_counts(kob_counts *counts, const char *said) {
    const char *last = said, *at;
    for (const char *line = said; *line; line = strchrnul(line, '\n'), line += *line == '\n')
        last = line;
    for (at = last; at; at = strstr(at, ", "), at = at ? at + 2 : NULL) {
        char *word;
        size_t count = strtoull(at, &word, 10);
        if (!strncmp(word, " translated", 11))
            counts->translated = count;
        else if (!strncmp(word, " fuzzy", 6))
            counts->fuzzy = count;
        else if (!strncmp(word, " untranslated", 13))
            counts->untranslated = count;
    }
}

/* Take the first `NAME:LINE: TEXT` or `NAME:LINE:COLUMN: TEXT` that isn't a warning. */
static void take_refusal(struct gnu_answer *answer, const char *name, const char *said) {
    size_t len = strlen(name);
    for (const char *line = said, *end; *line && !answer->why; line = end + (*end == '\n')) {
        end = strchrnul(line, '\n');
        if (strncmp(line, name, len) || line[len] != ':' || line[len + 1] < '0' || line[len + 1] > '9')
            continue;
        const char *text = line + len + 1;
        text += strspn(text, "0123456789:");
        text += *text == ' ';
        if (!strncmp(text, "warning: ", 9))
            continue;
        answer->line = (unsigned)strtoul(line + len + 1, NULL, 10);
        answer->why = text_of("%.*s", (int)(end - text), text);
    }
}

/* Take the fields that the header lacks, of each of which there is a line `NAME:LINE: warning: header field 'FIELD' missing
 * in header`. */
static void take_missing(struct gnu_answer *answer, const char *name, const char *said) {
    size_t len = strlen(name);
    for (unsigned place = 0; place < FIELD_COUNT; place++) {
        char *text = text_of(": warning: header field '%s' missing", fields[place]);
        const char *at = strstr(said, text);
        free(text);
        if (!at)
            continue;
        answer->missing |= 1u << place;
        while (at > said && at[-1] != '\n')
            at--;
        if (!strncmp(at, name, len) && at[len] == ':')
            answer->line = (unsigned)strtoul(at + len + 1, NULL, 10);
    }
}

/* The streams of a run of GNU msgfmt. */
struct captured {
    int input, made, said;
};

static void close_all(const struct captured *files) {
    close(files->input);
    close(files->made);
    close(files->said);
}

static char *read_back(int file, size_t *len) {
    lseek(file, 0, SEEK_SET);
    return read_all(file, len);
}

/* Its MO file has no hash table, as Kobdzila's has none. */
static struct ending run_gnu(const struct run *run, char *name, const struct captured *files) {
    char *words[9] = {gnu, "--no-hash", "--statistics", "--output-file=-"};
    int count = 4;
    if (run->options.checks)
        words[count++] = "--check";
    if (run->options.keeps_fuzzy)
        words[count++] = "--use-fuzzy";
    words[count++] = "--";
    words[count++] = name;
    return run_program(gnu, words, (struct streams){files->input, files->made, files->said, -1, -1});
}

/* Of a text without a translation GNU msgfmt writes no file: take Kobdzila's, which has no entry. */
static void take_empty_mo(struct gnu_answer *answer) {
    kob_catalogue *none = kob_open_po("", 0, KOB_WITHOUT_INDEX, NULL);
    kob_text file = none ? kob_mo_file(none) : (kob_text){"", 0};
    char *copy = none ? malloc(file.len) : NULL;
    if (!copy)
        stop_for_memory();
    free(answer->mo);
    answer->mo = memcpy(copy, file.at, file.len);
    answer->len = file.len;
    kob_release(none);
}

static void take_answer(struct gnu_answer *answer, const struct captured *files, struct ending ending,
                        const char *name) {
    size_t len = 0;
    char *said = ending.failure || ending.signal ? NULL : read_back(files->said, &len);
    if (said && ending.status == 0) {
        take_counts(&answer->counts, said);
        take_missing(answer, name, said);
        answer->mo = read_back(files->made, &answer->len);
        if (answer->mo && answer->len == 0)
            take_empty_mo(answer);
    } else if (said) {
        take_refusal(answer, name, said);
    }
    free(said);
}

struct gnu_answer ask_gnu(const struct run *run, char *name) {
    struct gnu_answer answer = {0};
    pthread_once(&looked, look_for_gnu);
    answer.is_missing = !gnu && !failure;
    if (!gnu || stopped_by)
        return answer;
    struct captured files = {raised(open("/dev/null", O_RDWR | O_CLOEXEC)), unnamed_file(), unnamed_file()};
    bool has_files = files.input >= 0 && files.made >= 0 && files.said >= 0;
    struct ending ending = has_files ? run_gnu(run, name, &files) : (struct ending){.failure = errno};
    if (ending.failure)
        failure = ending.failure;
    if (!stopped_by && ending.signal)
        ended_by = ending.signal;
    take_answer(&answer, &files, ending, name);
    close_all(&files);
    return answer;
}

void report_gnu_failure(void) {
    int cause = atomic_exchange(&failure, 0), number = atomic_exchange(&ended_by, 0);
    if (cause)
        tell("kob-compile: cannot run %s: %s", gnu ? gnu : "GNU msgfmt", strerror(cause));
    if (number)
        tell("kob-compile: signal %d ended %s", number, gnu);
}

char *why_no_gnu_for_flag_lines(void) {
    pthread_once(&looked, look_for_gnu);
    int version = gnu ? gnu_version(gnu) : 0;
    char *why = knows_flag_lines(version) ? NULL : why_no_flag_lines(gnu, version < 0 ? 0 : version);
    if (!why && !knows_flag_lines(version))
        stop_for_memory();
    return why;
}
