/* How words from outside are shown: options, names of files and pieces of a PO text, in the log, in its table and in
 * messages. A byte that would end a line or a field, or that a terminal obeys, is written as an escape sequence, as `ls
 * --quoting-style=escape` writes it and $'..' of the shell reads it. Blanks stay. */
#include "or_gnu.h"

#include <stdarg.h>
#include <stdio.h>
#include <stdlib.h>
#include <string.h>
#include <unistd.h>

enum { MOST_OF_PIECE = 5 }; /* bytes of an escape sequence, or of a character, with a NUL */

/* Characters that end a line for some readers (C1 controls, U+2028, U+2029), that terminals obey (C1 controls), or that
 * change the order of the others (the explicit formatting characters of UAX #9). */
static const struct {
    unsigned first, last;
} hidden[] = {{0x00, 0x1f}, {0x7f, 0x9f}, {0x2028, 0x202e}, {0x2066, 0x2069}};

size_t character_at(const unsigned char *at, size_t len, unsigned *which) {
    static const unsigned least[] = {0, 0x80, 0x800, 0x10000};
    size_t more = *at < 0x80 ? 0 : *at < 0xc2 ? len : *at < 0xe0 ? 1 : *at < 0xf0 ? 2 : *at < 0xf5 ? 3 : len;
    if (more >= len)
        return 0;
    *which = more ? *at & (0x3fu >> more) : *at;
    for (size_t place = 1; place <= more; place++) {
        if ((at[place] & 0xc0) != 0x80)
            return 0;
        *which = *which << 6 | (at[place] & 0x3fu);
    }
    bool is_character = *which >= least[more] && *which <= 0x10ffff && (*which < 0xd800 || *which > 0xdfff);
    return is_character ? more + 1 : 0;
}

bool is_utf8(const char *name) {
    const unsigned char *at = (const unsigned char *)name;
    size_t len = strlen(name), used;
    for (unsigned which; len > 0; at += used, len -= used)
        if ((used = character_at(at, len, &which)) == 0)
            return false;
    return true;
}

static bool is_hidden(unsigned which) {
    for (size_t place = 0; place < sizeof hidden / sizeof *hidden; place++)
        if (hidden[place].first <= which && which <= hidden[place].last)
            return true;
    return false;
}

/* Write how the first character, or the first byte, is shown. Returns how many bytes that are of those given. */
static size_t show_piece(char piece[MOST_OF_PIECE], const char *bytes, size_t len, enum backslashes backslashes) {
    static const char letters[] = "abtnvfr"; /* of the bytes from 7 on */
    const unsigned char *at = (const unsigned char *)bytes;
    unsigned which = 0;
    size_t used = character_at(at, len, &which);
    if (used && !is_hidden(which) && (which != '\\' || backslashes == AS_THEY_ARE)) {
        memcpy(piece, bytes, used);
        piece[used] = '\0';
        return used;
    }
    if (*at == '\\')
        snprintf(piece, MOST_OF_PIECE, "\\\\");
    else if ('\a' <= *at && *at <= '\r')
        snprintf(piece, MOST_OF_PIECE, "\\%c", letters[*at - '\a']);
    else
        snprintf(piece, MOST_OF_PIECE, "\\%03o", *at);
    return 1;
}

size_t show(char *to, size_t room, const char *bytes, size_t len, enum backslashes backslashes) {
    size_t made = 0;
    while (len > 0) {
        char piece[MOST_OF_PIECE];
        size_t used = show_piece(piece, bytes, len, backslashes), count = strlen(piece);
        if (made + count >= room)
            break;
        memcpy(to + made, piece, count);
        made += count;
        bytes += used;
        len -= used;
    }
    to[made] = '\0';
    return made;
}

char *shown(const char *bytes, size_t len, enum backslashes backslashes) {
    char *to = malloc(4 * len + 1);
    if (to)
        show(to, 4 * len + 1, bytes, len, backslashes);
    return to;
}

void tell(const char *format, ...) {
    char *plain = NULL, *line = NULL;
    va_list values;
    va_start(values, format);
    int len = vasprintf(&plain, format, values);
    va_end(values);
    if (len >= 0 && (line = shown(plain, (size_t)len, AS_THEY_ARE))) {
        size_t end = strlen(line);
        line[end] = '\n'; /* in the place of the NUL: a line is written at once */
        write_all(STDERR_FILENO, line, end + 1);
    } else {
        static const char without_memory[] = ": out of memory\n";
        write_all(STDERR_FILENO, program_name, strlen(program_name));
        write_all(STDERR_FILENO, without_memory, sizeof without_memory - 1);
    }
    if (len >= 0)
        free(plain);
    free(line);
}
