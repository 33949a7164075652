/* Aliases of locales, such as `french`, from the file locale.alias, read as the C library does. Each line has an alias
 * and the locale name that it stands for. Aliases are case-insensitive, and a line that begins with # is a comment. */
#define _DEFAULT_SOURCE
#include "intl.h"

#include "file_bytes.h"

#include <ctype.h>
#include <errno.h>
#include <stdlib.h>
#include <string.h>
#include <strings.h>

#define ALIASES "/usr/share/locale/locale.alias"
#define MOST_BYTES ((size_t)1 << 20)

static char *lines; /* NULL if there is no such file */
static int is_read;

static void read_aliases(void) {
    size_t len = 0;
    unsigned char *bytes = file_bytes(ALIASES, REGULAR_FILES, MOST_BYTES, &len);
    is_read = bytes ? len > MOST_BYTES : !may_pass(errno);
    char *text = bytes && !is_read ? realloc(bytes, len + 1) : NULL;
    if (!text) {
        free(bytes);
        return;
    }
    text[len] = 0;
    lines = text;
    is_read = 1;
}

int know_aliases(void) {
    if (!is_read)
        read_aliases();
    return is_read;
}

static const char *skip_space(const char *at) {
    while (*at != '\n' && isspace((unsigned char)*at))
        at++;
    return at;
}

static const char *skip_word(const char *at) {
    while (*at && !isspace((unsigned char)*at))
        at++;
    return at;
}

const char *alias_value(const char *name) {
    static char value[400];
    size_t len = strlen(name);
    for (const char *line = lines; line && *line; line += strcspn(line, "\n"), line += *line == '\n') {
        const char *alias = skip_space(line), *end = skip_word(alias), *at = skip_space(end), *last = skip_word(at);
        if (*alias == '#' || at == last || (size_t)(end - alias) != len || strncasecmp(alias, name, len))
            continue;
        if ((size_t)(last - at) >= sizeof value)
            return NULL;
        memcpy(value, at, (size_t)(last - at));
        value[last - at] = 0;
        return value;
    }
    return NULL;
}
