/* The log of msgfmt-or-gnu, and the table that sums it up. The log has a line for each PO file: who compiled it, the
 * status, why, milliseconds and its name, separated by tabs. The table has a row for each who and why. What comes from
 * outside is shown (or_gnu_shown.c), so that no word makes a line, a field or a command for the terminal. */
#include "or_gnu.h"

#include <errno.h>
#include <fcntl.h>
#include <stdio.h>
#include <stdlib.h>
#include <string.h>
#include <unistd.h>

/* --- writing -------------------------------------------------------------------------------------------------- */

/* Print a line of the log. False if out of memory. */
static bool print_line(FILE *to, const char *who, int status, const char *why, double milliseconds, const char *name) {
    char *reason = *why ? shown(why, strlen(why), AS_THEY_ARE) : strdup("-");
    char *shown_name = shown(name, strlen(name), DOUBLED);
    bool done = reason && shown_name;
    done = done && fprintf(to, "%s\t%d\t%s\t%.1f\t%s\n", who, status, reason, milliseconds, shown_name) > 0;
    free(reason);
    free(shown_name);
    return done;
}

/* Return the lines of a run; NULL and errno if out of memory. */
static char *lines_of(const struct request *request, const char *who, int status, const char *why, double milliseconds,
                      size_t *len) {
    char *lines = NULL;
    FILE *to = open_memstream(&lines, len);
    int count = request->input_count ? request->input_count : 1;
    bool done = to != NULL;
    for (int place = 0; done && place < count; place++)
        done = print_line(to, who, status, why, milliseconds / count,
                          request->input_count ? request->inputs[place] : "(none)");
    if (to && fclose(to) == 0 && done)
        return lines;
    free(lines);
    errno = ENOMEM;
    return NULL;
}

/* a single write in append mode, so that runs at the same time don't mix their lines */
void log_files(const struct request *request, const char *who, int status, const char *why, double milliseconds) {
    const char *name = getenv("MSGFMT_OR_GNU_LOG");
    if (!name || !*name)
        return;
    size_t len = 0;
    char *lines = lines_of(request, who, status, why, milliseconds, &len);
    int file = lines ? raised(open(name, O_WRONLY | O_APPEND | O_CREAT | O_NOCTTY, 0666)) : -1;
    if (file < 0 || !write_all(file, lines, len))
        tell("msgfmt-or-gnu: cannot write %s: %s", name, strerror(errno));
    close(file);
    free(lines);
}

/* --- the table ------------------------------------------------------------------------------------------------ */

struct row {
    char *who, *why;
    unsigned long files, failed;
    double milliseconds;
};

struct table {
    struct row *rows;
    size_t count, room;
};

static struct row *row_of(struct table *table, char *who, char *why) {
    for (size_t place = 0; place < table->count; place++)
        if (!strcmp(table->rows[place].who, who) && !strcmp(table->rows[place].why, why))
            return &table->rows[place];
    if (table->count == table->room) {
        size_t room = table->room ? 2 * table->room : 64;
        struct row *rows = realloc(table->rows, room * sizeof *rows);
        if (!rows)
            return NULL;
        table->rows = rows;
        table->room = room;
    }
    table->rows[table->count] = (struct row){.who = who, .why = why};
    return &table->rows[table->count++];
}

/* Whether a field has one or more of these characters, and no other. */
static bool is_of(const char *field, const char *characters) {
    return *field && field[strspn(field, characters)] == '\0';
}

enum { WHO, STATUS, WHY, MILLISECONDS, NAME, FIELDS };

/* Cut a line at its tabs. False if it isn't one of a log. */
static bool cut_line(char *line, size_t len, char *fields[FIELDS]) {
    if (memchr(line, '\0', len))
        return false;
    for (int place = 0; place < FIELDS; place++)
        if (!(fields[place] = strsep(&line, "\t")))
            return false;
    bool is_whole = !line && *fields[WHY] && *fields[NAME];
    bool has_who = !strcmp(fields[WHO], "ours") || !strcmp(fields[WHO], "GNU");
    return is_whole && has_who && is_of(fields[STATUS], "0123456789") && is_of(fields[MILLISECONDS], "0123456789.");
}

/* Order rows: Kobdzila's first (`ours` sorts after `GNU`), and then by the number of files, most first. */
static int by_who_and_files(const void *one, const void *two) {
    const struct row *first = one, *second = two;
    int who = strcmp(second->who, first->who);
    if (who || first->files == second->files)
        return who ? who : strcmp(first->why, second->why);
    return first->files < second->files ? 1 : -1;
}

/* Print a row. An older log has reasons as they came, so they are shown here once more. */
static bool print_row(FILE *to, const struct row *row) {
    char *why = shown(row->why, strlen(row->why), AS_THEY_ARE);
    bool done = why && fprintf(to, "%-5s %7lu %7lu %13.1f%s%s\n", row->who, row->files, row->failed, row->milliseconds,
                               *why ? "  " : "", why) > 0;
    free(why);
    return done;
}

/* Print the table at once. Returns 0, or the errno of why it can't be printed. */
static int print_table(struct table *table) {
    struct row all = {.who = (char[]){"all"}, .why = (char[]){""}};
    char *lines = NULL;
    size_t len = 0;
    FILE *to = open_memstream(&lines, &len);
    bool done = to && fprintf(to, "%-5s %7s %7s %13s  %s\n", "who", "files", "failed", "milliseconds", "why") > 0;
    if (table->count)
        qsort(table->rows, table->count, sizeof *table->rows, by_who_and_files);
    for (size_t place = 0; done && place < table->count; place++) {
        done = print_row(to, &table->rows[place]);
        all.files += table->rows[place].files;
        all.failed += table->rows[place].failed;
        all.milliseconds += table->rows[place].milliseconds;
    }
    done = done && print_row(to, &all);
    done = to && fclose(to) == 0 && done;
    int cause = !done ? ENOMEM : write_all(STDOUT_FILENO, lines, len) ? 0 : errno;
    free(lines);
    return cause;
}

/* Take in a text's lines. Returns the status: 1 if there was a line that isn't one of a log. False if out of memory. */
static bool take_lines(struct table *table, const char *name, char *text, size_t len, int *status) {
    char *fields[FIELDS], *end = text + len;
    for (unsigned long number = 1; text < end; number++) {
        char *stop = memchr(text, '\n', (size_t)(end - text));
        stop = stop ? stop : end; /* (a NUL follows the text) */
        *stop = '\0';
        if (cut_line(text, (size_t)(stop - text), fields)) {
            struct row *row = row_of(table, fields[WHO], fields[WHY]);
            if (!row)
                return false;
            row->files++;
            row->failed += strcmp(fields[STATUS], "0") != 0;
            row->milliseconds += strtod(fields[MILLISECONDS], NULL);
        } else {
            tell("msgfmt-or-gnu: %s:%lu: not a line of a log", name, number);
            *status = 1;
        }
        text = stop + 1;
    }
    return true;
}

int summarise(const char *name) {
    size_t len = 0;
    int file = raised(open(name, O_RDONLY | O_CLOEXEC)), status = 0;
    char *text = file < 0 ? NULL : read_all(file, &len);
    if (!text) {
        tell("msgfmt-or-gnu: cannot read %s: %s", name, strerror(errno));
        close(file);
        return 1;
    }
    struct table table = {0};
    int cause = take_lines(&table, name, text, len, &status) ? print_table(&table) : ENOMEM;
    if (cause)
        tell("msgfmt-or-gnu: cannot write the table: %s", strerror(cause));
    free(table.rows);
    free(text);
    close(file);
    return cause ? 1 : status;
}
