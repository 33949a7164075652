/* Formats of Python's `%` as GNU msgfmt 0.21 speaks of them (docs/reference/formats.md): why a text is no format, and how the
 * arguments of two differ. */
#include "or_gnu_formats.h"

#include <string.h>

static const char mixed[] =
    "The string refers to arguments both through argument names and through unnamed argument specifications.";
static const char cut_off[] = "The string ends in the middle of a directive.";

static bool has_names(const struct arguments *arguments) { return arguments->count && arguments->at[0].name; }

/* Add an argument, unless others have names and it has none, or the other way round. */
static const char *take(struct arguments *arguments, struct argument argument, const char *behind) {
    if (arguments->count && has_names(arguments) != !!argument.name)
        return refuse_format(arguments, "%s", mixed);
    add_argument(arguments, argument);
    return behind;
}

/* Read the name of an argument, up to the `)` that closes no `(` in it. */
static const char *read_name(struct arguments *arguments, const char *at, struct argument *argument) {
    int depth = 0;
    if (*at != '(')
        return at;
    argument->name = ++at;
    for (; *at && (*at != ')' || depth); at++)
        depth += (*at == '(') - (*at == ')');
    argument->len = (size_t)(at - argument->name);
    return *at ? at + 1 : refuse_format(arguments, "%s", cut_off);
}

/* Read a width or a precision: digits, or a `*`, which takes an integer. */
static const char *read_size(struct arguments *arguments, const char *at) {
    if (*at == '*')
        return take(arguments, (struct argument){NULL, 0, INTEGER}, at + 1);
    return at + strspn(at, "0123456789");
}

static bool is_zero(const char *from, const char *end) {
    return end > from && strspn(from, "0") == (size_t)(end - from);
}

/* Find the kind of a conversion. False if it is none. */
static bool find_kind(char conversion, bool has_zero, enum argument_kind *kind) {
    static const char conversions[] = "diouxXeEfgGcsr%";
    static const enum argument_kind kinds[] = {INTEGER, INTEGER, INTEGER, INTEGER, INTEGER, INTEGER, FLOATING, FLOATING,
                                               FLOATING, FLOATING, FLOATING, CHARACTER, TEXT, TEXT, PERCENT};
    const char *at = conversion ? strchr(conversions, conversion) : NULL;
    if (at)
        *kind = kinds[at - conversions] == TEXT && has_zero ? ANY : kinds[at - conversions];
    return at;
}

static const char *refuse_conversion(struct arguments *arguments, char conversion) {
    if (!conversion)
        return refuse_format(arguments, "%s", cut_off);
    if (conversion < ' ' || conversion > '~')
        return refuse_format(arguments, "The character that terminates the directive number %u is not a valid "
                                        "conversion specifier.", arguments->directives);
    return refuse_format(arguments, "In the directive number %u, the character '%c' is not a valid conversion specifier.",
                         arguments->directives, conversion);
}

/* Read a directive, behind its `%`. Returns what follows, or NULL if it is none. */
static const char *read_directive(struct arguments *arguments, const char *at) {
    struct argument argument = {NULL, 0, ANY};
    bool has_zero = false;
    arguments->directives++;
    if (!(at = read_name(arguments, at, &argument)) || !(at = read_size(arguments, at + strspn(at, "-+ #0"))))
        return NULL;
    if (*at == '.') {
        const char *from = at + 1;
        if (!(at = read_size(arguments, from)))
            return NULL;
        has_zero = is_zero(from, at);
    }
    at += *at && strchr("hlL", *at);
    if (!find_kind(*at, has_zero, &argument.kind))
        return refuse_conversion(arguments, *at);
    return *at == '%' && !argument.name ? at + 1 : take(arguments, argument, at + 1);
}

static bool fit(enum argument_kind one, enum argument_kind two) { return one == two || one == ANY || two == ANY; }

/* Let each name stand once, with the kind that all its places have. */
static void merge_names(struct arguments *arguments) {
    size_t kept = 0;
    sort_arguments(arguments);
    for (size_t place = 0; place < arguments->count; place++) {
        const struct argument *it = &arguments->at[place];
        struct argument *last = kept ? &arguments->at[kept - 1] : NULL;
        if (!last || compare_names(last, it) != 0)
            arguments->at[kept++] = *it;
        else if (!fit(last->kind, it->kind))
            refuse_format(arguments, "The string refers to the argument named '%.*s' in incompatible ways.",
                          (int)it->len, it->name);
        else if (last->kind == ANY)
            last->kind = it->kind;
    }
    arguments->count = kept;
}

void read_python_format(struct arguments *arguments, const char *text) {
    while (text && (text = strchr(text, '%')))
        text = read_directive(arguments, text + 1);
    if (!arguments->why && has_names(arguments))
        merge_names(arguments);
}

/* ---- how two formats differ */

/* Find the first name that only one of two sorted lists has, if that matters. */
static char *name_difference(const struct arguments *original, const struct arguments *form, struct called called,
                             bool is_strict) {
    for (size_t here = 0, there = 0; here < original->count || there < form->count;) {
        int order = compare_at(original, here, form, there);
        const struct argument *it = order > 0 ? &form->at[there] : &original->at[here];
        if (order > 0)
            return words_of("a format specification for argument '%.*s', as in '%s', doesn't exist in '%s'", (int)it->len,
                            it->name, called.form, called.original);
        if (order < 0 && is_strict)
            return words_of("a format specification for argument '%.*s' doesn't exist in '%s'", (int)it->len, it->name,
                            called.form);
        here += order <= 0;
        there += order == 0;
    }
    return NULL;
}

static bool differ(const struct argument *one, const struct argument *two, bool is_strict) {
    return is_strict ? one->kind != two->kind : !fit(one->kind, two->kind);
}

/* Find the first name that has another kind. The original has all names of the form. */
static char *kind_difference(const struct arguments *original, const struct arguments *form, struct called called,
                             bool is_strict) {
    for (size_t here = 0, there = 0; here < original->count && there < form->count; here++) {
        const struct argument *one = &original->at[here], *two = &form->at[there];
        if (compare_names(one, two) != 0)
            continue;
        if (differ(one, two, is_strict))
            return words_of("format specifications in '%s' and '%s' for argument '%.*s' are not the same", called.original,
                            called.form, (int)two->len, two->name);
        there++;
    }
    return NULL;
}

static char *unnamed_difference(const struct arguments *original, const struct arguments *form, struct called called,
                                bool is_strict) {
    if (original->count != form->count)
        return words_of("number of format specifications in '%s' and '%s' does not match", called.original, called.form);
    for (size_t place = 0; place < form->count; place++)
        if (differ(&original->at[place], &form->at[place], is_strict))
            return words_of("format specifications in '%s' and '%s' for argument %zu are not the same", called.original,
                            called.form, place + 1);
    return NULL;
}

char *python_difference(const struct arguments *original, const struct arguments *form, struct called called,
                        bool is_strict) {
    bool maps = has_names(original), form_maps = has_names(form);
    if (original->count && form->count && maps != form_maps)
        return words_of("format specifications in '%s' expect a %s, those in '%s' expect a %s", called.original,
                        maps ? "mapping" : "tuple", called.form, form_maps ? "mapping" : "tuple");
    if (!maps && !form_maps)
        return unnamed_difference(original, form, called, is_strict);
    char *found = name_difference(original, form, called, is_strict);
    return found ? found : kind_difference(original, form, called, is_strict);
}
