/* Formats of Python's `str.format` as GNU msgfmt 0.21 speaks of them (docs/reference/formats.md): why a text is no format, and
 * how the arguments of two differ. */
#include "or_gnu_formats.h"

#include <string.h>

static const char cut_off[] = "The string ends in the middle of a directive.";

static const char *behind_word(const char *at) {
    return at + strspn(at, "abcdefghijklmnopqrstuvwxyzABCDEFGHIJKLMNOPQRSTUVWXYZ0123456789_");
}

static bool is_digit(char byte) { return byte >= '0' && byte <= '9'; }

/* Read a name, or digits if they may stand here. */
static const char *read_key(struct arguments *arguments, const char *at, bool may_be_digits, const char *what) {
    if (is_digit(*at) && may_be_digits)
        return at + strspn(at, "0123456789");
    if (!is_digit(*at) && behind_word(at) > at)
        return behind_word(at);
    if (!*at)
        return refuse_format(arguments, "%s", cut_off);
    return refuse_format(arguments, "In the directive number %u, '%c' cannot start a %s.", arguments->directives, *at, what);
}

static const char *read_element(struct arguments *arguments, const char *at) {
    if (!(at = read_key(arguments, at, true, "getitem argument")))
        return NULL;
    return *at == ']' ? at + 1 : refuse_format(arguments, "%s", cut_off);
}

/* Read a field's name and what it accesses. */
static const char *read_name(struct arguments *arguments, const char *at) {
    at = read_key(arguments, at, true, "field name");
    while (at && (*at == '.' || *at == '['))
        at = *at == '.' ? read_key(arguments, at + 1, false, "getattr argument") : read_element(arguments, at + 1);
    return at;
}

static bool is_of(char byte, const char *bytes) { return byte && strchr(bytes, byte); }

/* Skip a standard format specifier, each of whose parts may be left out. */
static const char *behind_specifier(const char *at) {
    static const char alignments[] = "<>=^";
    if (*at && is_of(at[1], alignments))
        at += 2;
    else
        at += is_of(*at, alignments);
    at += is_of(*at, "+- ");
    at += *at == '#';
    at += strspn(at, "0123456789");
    if (*at == '.')
        at += 1 + strspn(at + 1, "0123456789");
    return at + is_of(*at, "bcdoxXneEfFgG%");
}

static const char *read_close(struct arguments *arguments, const char *at) {
    if (*at == '}')
        return at + 1;
    return refuse_format(arguments, "In the directive number %u, there is an unterminated format directive.",
                         arguments->directives);
}

/* Read a field or two braces, behind the `{` that follows a field's colon. */
static const char *read_nested(struct arguments *arguments, const char *at) {
    if (*at == '{')
        return at + 1;
    if (!(at = read_name(arguments, at)))
        return NULL;
    if (*at == ':')
        return refuse_format(arguments, "In the directive number %u, no more nesting is allowed in a format specifier.",
                             arguments->directives);
    return read_close(arguments, at);
}

static const char *read_specifier(struct arguments *arguments, const char *at) {
    at = *at == '{' ? read_nested(arguments, at + 1) : behind_specifier(at);
    return !at || *at == '}' ? at : refuse_format(arguments, "%s", cut_off);
}

/* Read a directive, behind its `{`. Returns what follows, or NULL if it is none. */
static const char *read_directive(struct arguments *arguments, const char *at) {
    const char *from = at;
    if (*at == '{')
        return at + 1;
    if (!(at = read_name(arguments, at)) || (*at == ':' && !(at = read_specifier(arguments, at + 1))))
        return NULL;
    struct argument argument = {from, (size_t)(at - from), ANY};
    if ((at = read_close(arguments, at))) {
        add_argument(arguments, argument);
        arguments->directives++;
    }
    return at;
}

void read_brace_format(struct arguments *arguments, const char *text) {
    while (text && (text = strchr(text, '{')))
        text = read_directive(arguments, text + 1);
    if (!arguments->why)
        sort_arguments(arguments);
}

/* Go behind a name, wherever it stands in a sorted list. */
static size_t behind_name(const struct arguments *arguments, size_t place) {
    const struct argument *it = &arguments->at[place];
    while (place < arguments->count && compare_names(it, &arguments->at[place]) == 0)
        place++;
    return place;
}

/* (GNU msgfmt accepts any names if it isn't strict.) */
char *brace_difference(const struct arguments *original, const struct arguments *form, struct called called,
                       bool is_strict) {
    for (size_t here = 0, there = 0; is_strict && (here < original->count || there < form->count);) {
        int order = compare_at(original, here, form, there);
        const struct argument *it = order > 0 ? &form->at[there] : &original->at[here];
        if (order)
            return words_of("a format specification for argument '%.*s' doesn't exist in '%s'", (int)it->len, it->name,
                            order > 0 ? called.original : called.form);
        here = behind_name(original, here);
        there = behind_name(form, there);
    }
    return NULL;
}
