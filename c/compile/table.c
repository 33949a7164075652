/* The table by language: how much is translated, fuzzy and untranslated, in per cent, with a bar on a terminal; and the
 * line that sums a run up. */
#include "compile.h"
#include "or_gnu.h"

#include <stdlib.h>
#include <string.h>
#include <unistd.h>

enum { BAR = 20, MOST_OF_LANGUAGE = 200 };

struct row {
    char *language;
    kob_counts counts;
};

struct rows {
    struct row *at;
    size_t count;
};

/* How bars are drawn. */
struct style {
    bool has_bar, has_colour, has_blocks;
};

static bool is_set(const char *name) {
    const char *value = getenv(name);
    return value && *value;
}

static struct style style_of(const struct run *run, FILE *to) {
    const char *terminal = getenv("TERM");
    bool has_bar = isatty(fileno(to)) && terminal;
    return (struct style){has_bar, has_bar && strcmp(terminal, "dumb") && !is_set("NO_COLOR"), run->has_blocks};
}

unsigned tenths_of(size_t part, size_t whole) {
    unsigned tenths = whole ? (unsigned)((double)part / (double)whole * 1000) : 0;
    return part && !tenths ? 1 : tenths;
}

static size_t sum_of(kob_counts counts) {
    return counts.translated + counts.fuzzy + counts.untranslated;
}

/* ---- rows */

static int by_name(const void *one, const void *two) {
    const struct catalogue *const *first = one, *const *second = two;
    return strcmp((*first)->language, (*second)->language);
}

/* Order rows by how much is translated, most first, and then by language. */
static int by_share(const void *one, const void *two) {
    const struct row *first = one, *second = two;
    double shares[] = {0, 0};
    if (sum_of(first->counts))
        shares[0] = (double)first->counts.translated / (double)sum_of(first->counts);
    if (sum_of(second->counts))
        shares[1] = (double)second->counts.translated / (double)sum_of(second->counts);
    if (shares[0] != shares[1])
        return shares[0] < shares[1] ? 1 : -1;
    return strcmp(first->language, second->language);
}

/* Add a catalogue to the last row, or to a new one if that is of another language. */
static void add(struct rows *rows, const struct catalogue *it) {
    struct row *row = rows->count ? &rows->at[rows->count - 1] : NULL;
    if (!row || strcmp(row->language, it->language)) {
        row = &rows->at[rows->count++];
        *row = (struct row){.language = it->language};
    }
    row->counts.translated += it->counts.translated;
    row->counts.fuzzy += it->counts.fuzzy;
    row->counts.untranslated += it->counts.untranslated;
}

static struct rows rows_of(const struct catalogues *all) {
    struct rows rows = {calloc(all->count + 1, sizeof *rows.at), 0};
    const struct catalogue **sorted = malloc((all->count + 1) * sizeof *sorted);
    size_t count = 0;
    if (!rows.at || !sorted)
        stop_for_memory();
    for (size_t place = 0; place < all->count; place++)
        if (all->at[place].outcome == IS_COMPILED)
            sorted[count++] = &all->at[place];
    qsort(sorted, count, sizeof *sorted, by_name);
    for (size_t place = 0; place < count; place++)
        add(&rows, sorted[place]);
    free(sorted);
    if (rows.count)
        qsort(rows.at, rows.count, sizeof *rows.at, by_share);
    return rows;
}

/* ---- printing */

/* Print a piece of a bar: as many cells as the part has of the whole. */
static void print_cells(FILE *to, const struct style *style, int count, const char *colour, const char *block,
                        char plain) {
    if (count && style->has_colour)
        fputs(colour, to);
    for (int cell = 0; cell < count; cell++) {
        if (style->has_blocks)
            fputs(block, to);
        else
            fputc(plain, to);
    }
    if (count && style->has_colour)
        fputs("\033[0m", to);
}

static void print_bar(FILE *to, const struct style *style, kob_counts counts) {
    size_t whole = sum_of(counts);
    int translated = whole ? (int)(counts.translated * BAR / whole) : 0;
    int fuzzy = whole ? (int)((counts.translated + counts.fuzzy) * BAR / whole) - translated : 0;
    fputs("  ", to);
    print_cells(to, style, translated, "\033[32m", "\u2588", '#');
    print_cells(to, style, fuzzy, "\033[33m", "\u2592", '+');
    print_cells(to, style, BAR - translated - fuzzy, "\033[90m", "\u2591", '.');
}

static void print_share(FILE *to, int width, size_t part, size_t whole) {
    unsigned tenths = tenths_of(part, whole);
    fprintf(to, "%*u.%u %%", width - 4, tenths / 10, tenths % 10);
}

static void print_row(FILE *to, const struct style *style, int width, const char *language, kob_counts counts) {
    size_t whole = sum_of(counts);
    fprintf(to, "%-*s", width, language);
    print_share(to, 13, counts.translated, whole);
    print_share(to, 10, counts.fuzzy, whole);
    print_share(to, 14, counts.untranslated, whole);
    if (style->has_bar)
        print_bar(to, style, counts);
    fputc('\n', to);
}

void print_table(const struct run *run, FILE *to) {
    struct rows rows = rows_of(&run->catalogues);
    struct style style = style_of(run, to);
    char (*names)[MOST_OF_LANGUAGE] = calloc(rows.count + 1, sizeof *names);
    int width = (int)strlen("language");
    if (!names)
        stop_for_memory();
    for (size_t place = 0; place < rows.count; place++) {
        int len = (int)show(names[place], sizeof *names, rows.at[place].language, strlen(rows.at[place].language), DOUBLED);
        width = len > width ? len : width;
    }
    if (rows.count)
        fprintf(to, "%-*s%13s%10s%14s\n", width, "language", "translated", "fuzzy", "untranslated");
    for (size_t place = 0; place < rows.count; place++)
        print_row(to, &style, width, names[place], rows.at[place].counts);
    free(names);
    free(rows.at);
}

void print_summary(const struct run *run, FILE *to) {
    static const char *const words[] = {"not reached", "up to date", "compiled", "refused", "not read", "not written"};
    static const enum outcome order[] = {IS_COMPILED, IS_CURRENT, IS_REFUSED, IS_UNREAD, IS_UNWRITTEN, WAITING};
    size_t counts[IS_UNWRITTEN + 1] = {0};
    const char *before = "";
    if (run->catalogues.count == 0)
        return;
    for (size_t place = 0; place < run->catalogues.count; place++)
        counts[run->catalogues.at[place].outcome]++;
    for (size_t place = 0; place < sizeof order / sizeof *order; place++)
        if (counts[order[place]]) {
            bool is_checked = order[place] == IS_COMPILED && run->options.only_checks;
            fprintf(to, "%s%zu %s", before, counts[order[place]], is_checked ? "checked" : words[order[place]]);
            before = ", ";
        }
    fprintf(to, " in %.2f s\n", seconds_since(run->start));
}
