/* A list of the arguments that a format takes. */
#include "or_gnu_formats.h"

#include <stdarg.h>
#include <stdio.h>
#include <stdlib.h>
#include <string.h>

void add_argument(struct arguments *arguments, struct argument argument) {
    enum { FIRST_ROOM = 8 };
    if (arguments->count == arguments->room) {
        size_t room = arguments->room ? 2 * arguments->room : FIRST_ROOM;
        struct argument *at = realloc(arguments->at, room * sizeof *at);
        arguments->has_failed |= !at;
        if (!at)
            return;
        arguments->at = at;
        arguments->room = room;
    }
    arguments->at[arguments->count++] = argument;
}

const char *refuse_format(struct arguments *arguments, const char *words, ...) {
    va_list values;
    va_start(values, words);
    if (!arguments->why && vasprintf(&arguments->why, words, values) < 0) {
        arguments->why = NULL;
        arguments->has_failed = true;
    }
    va_end(values);
    return NULL;
}

int compare_names(const struct argument *one, const struct argument *two) {
    size_t len = one->len < two->len ? one->len : two->len;
    int order = memcmp(one->name, two->name, len);
    return order ? order : (one->len > two->len) - (one->len < two->len);
}

int compare_at(const struct arguments *ones, size_t here, const struct arguments *others, size_t there) {
    if (here == ones->count || there == others->count)
        return here == ones->count ? there < others->count : -1;
    return compare_names(&ones->at[here], &others->at[there]);
}

static int by_name(const void *one, const void *two) { return compare_names(one, two); }

void sort_arguments(struct arguments *arguments) {
    if (arguments->count)
        qsort(arguments->at, arguments->count, sizeof *arguments->at, by_name);
}

void free_arguments(struct arguments *arguments) {
    free(arguments->at);
    free(arguments->why);
    *arguments = (struct arguments){0};
}

char *words_of(const char *words, ...) {
    char *text = NULL;
    va_list values;
    va_start(values, words);
    int len = vasprintf(&text, words, values);
    va_end(values);
    return len < 0 ? NULL : text;
}
