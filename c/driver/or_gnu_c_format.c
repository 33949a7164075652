/* Directives of C formats that GNU msgfmt reads and Kobdzila's doesn't, since the C standard leaves them undefined,
 * such as `%Zu`, `%hs` and `%1$m`. Kobdzila's takes a msgid with one for no format, and compares no translation with it.
 */
#include "or_gnu_text.h"

#include <string.h>

enum { MOST_DIGITS = 9, MOST_SIZES = 2 }; /* of a number, and letters of a size, that Kobdzila's reads */

static const char conversions[] = "dioxXueEfFgGaAcCsSpnm%", without_number[] = "m%";

/* The sizes that Kobdzila's reads, and before what. GNU msgfmt reads any letters before any conversion. */
static const struct size {
    const char *letters, *conversions;
} sizes[] = {
    {"", conversions}, {"hh", "dioxXun"}, {"h", "dioxXun"}, {"l", "dioxXueEfFgGaAcsn"}, {"ll", "dioxXun"},
    {"q", "dioxXun"}, {"L", "dioxXueEfFgGaA"}, {"j", "dioxXun"}, {"z", "dioxXun"}, {"t", "dioxXun"},
};

/* A format that is being read. */
struct format {
    struct spelled rest;
    int byte;    /* the next one, or -1 */
    bool is_odd; /* the directive has a number that only GNU msgfmt reads */
};

static void step(struct format *it) { it->byte = next_byte(&it->rest); }

static bool is_next(const struct format *it, const char *bytes) { return it->byte > 0 && strchr(bytes, it->byte); }

static void skip(struct format *it, const char *bytes) {
    while (is_next(it, bytes))
        step(it);
}

/* Take digits, and a `$` behind them. False if they are no number of an argument; *is_width then says whether they have
 * the digits of a width, and not only the flag `0`. */
static bool take_number(struct format *it, bool *is_width) {
    int first = it->byte;
    size_t count = 0;
    for (*is_width = false; is_next(it, "0123456789"); step(it), count++)
        *is_width |= it->byte != '0';
    if (count == 0 || it->byte != '$')
        return false;
    it->is_odd |= first == '0' || count > MOST_DIGITS;
    step(it);
    return true;
}

/* Take a width or the rest of a precision. */
static void take_width(struct format *it) {
    bool is_width;
    if (it->byte == '*') {
        step(it);
        take_number(it, &is_width);
    } else {
        skip(it, "0123456789");
    }
}

/* Take the letters of a size. False if Kobdzila's doesn't read them before this conversion. */
static bool take_size(struct format *it) {
    char letters[MOST_SIZES + 2] = "";
    for (size_t len = 0; is_next(it, "hlqLjztZ"); step(it))
        if (len <= MOST_SIZES)
            letters[len++] = (char)it->byte;
    for (size_t place = 0; place < sizeof sizes / sizeof *sizes; place++)
        if (!strcmp(sizes[place].letters, letters))
            return is_next(it, sizes[place].conversions);
    return false;
}

/* Take a directive from behind its `%` on. True if only GNU msgfmt reads it. */
static bool take_directive(struct format *it) {
    bool is_width;
    it->is_odd = false;
    bool has_number = take_number(it, &is_width);
    if (has_number || !is_width) {
        skip(it, " +-#0'I");
        take_width(it);
    }
    if (it->byte == '.') {
        step(it);
        take_width(it);
    }
    bool is_read = take_size(it);
    if (!is_next(it, conversions)) /* (no directive at all) */
        return false;
    bool is_ours = is_read && !it->is_odd && !(has_number && is_next(it, without_number));
    step(it);
    return !is_ours;
}

bool has_odd_directive(struct part strings) {
    struct format it = {.rest = spelled(strings)};
    for (step(&it); it.byte >= 0;) {
        bool begins_directive = it.byte == '%';
        step(&it);
        if (begins_directive && take_directive(&it))
            return true;
    }
    return false;
}

bool may_have_odd_directive(struct part text) {
    for (const char *at = text.at; at < text.end && (at = memchr(at, '%', (size_t)(text.end - at))); at++) {
        struct format it = {.rest = {{at + 1, text.end}, true}};
        step(&it);
        if (take_directive(&it))
            return true;
    }
    return false;
}
