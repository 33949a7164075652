/* The names of a locale's folders. A locale name has up to four parts. The folder of the whole name is searched
 * first, then those with fewer parts: the codeset is dropped first, then the territory, and the modifier last. Each
 * name with a codeset is followed by the one with the normalized codeset, which has only lower-case letters and
 * digits. */
#define _POSIX_C_SOURCE 200809L
#include "intl.h"

#include <string.h>

static int is_digit(char c) { return c >= '0' && c <= '9'; }

static int is_letter(char c) { return (c >= 'a' && c <= 'z') || (c >= 'A' && c <= 'Z'); }

/* Normalize a codeset: `utf8` for `UTF-8`. A codeset without letters is an ISO one. */
static struct part normalized_of(struct part codeset, char *to) {
    size_t len = 0, letters = 0;
    for (size_t i = 0; i < codeset.len; i++)
        letters += (size_t)is_letter(codeset.at[i]);
    if (!letters) {
        memcpy(to, "iso", 3);
        len = 3;
    }
    for (size_t i = 0; i < codeset.len; i++) {
        char c = codeset.at[i];
        if (is_letter(c) || is_digit(c))
            to[len++] = c >= 'A' && c <= 'Z' ? (char)(c - 'A' + 'a') : c;
    }
    return (struct part){ to, len };
}

/* Return the bytes from `at` up to the first one that is in `ends`. */
static struct part part_before(const char *at, const char *end, const char *ends) {
    const char *last = at;
    while (last < end && !strchr(ends, *last))
        last++;
    return (struct part){ at, (size_t)(last - at) };
}

static int is_same(struct part a, struct part b) { return a.len == b.len && !memcmp(a.at, b.at, a.len); }

/* A name without a language isn't split. */
struct name parts_of(const char *text, size_t len, char *normalized) {
    const char *at = text, *end = text + len;
    struct name name = { .language = part_before(text, end, "_.@") };
    at += name.language.len;
    if (!name.language.len) {
        name.language.len = len;
        return name;
    }
    if (at < end && *at == '_') {
        name.territory = part_before(at + 1, end, ".@");
        at += 1 + name.territory.len;
    }
    if (at < end && *at == '.') {
        name.codeset = part_before(at + 1, end, "@");
        at += 1 + name.codeset.len;
    }
    if (at < end)
        name.modifier = (struct part){ at + 1, (size_t)(end - at - 1) };
    if (name.codeset.len) {
        name.normalized = normalized_of(name.codeset, normalized);
        name.has |= WITH_CODESET | (is_same(name.codeset, name.normalized) ? 0 : WITH_NORMALIZED);
    }
    name.has |= (name.territory.len ? WITH_TERRITORY : 0) | (name.modifier.len ? WITH_MODIFIER : 0);
    return name;
}

int next_folder(const struct name *name, int parts) {
    while (--parts >= 0)
        if (!(parts & ~(int)name->has) &&
            (parts & (WITH_CODESET | WITH_NORMALIZED)) != (WITH_CODESET | WITH_NORMALIZED))
            return parts;
    return -1;
}

static char *put_part(char *to, char mark, struct part part) {
    *to = mark;
    memcpy(to + 1, part.at, part.len);
    return to + 1 + part.len;
}

char *put_name(char *to, const struct name *name, int parts) {
    memcpy(to, name->language.at, name->language.len);
    to += name->language.len;
    if (parts & WITH_TERRITORY)
        to = put_part(to, '_', name->territory);
    if (parts & WITH_CODESET)
        to = put_part(to, '.', name->codeset);
    if (parts & WITH_NORMALIZED)
        to = put_part(to, '.', name->normalized);
    if (parts & WITH_MODIFIER)
        to = put_part(to, '@', name->modifier);
    *to = 0;
    return to;
}
