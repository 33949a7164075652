/* The bytes that the strings of a PO text stand for. */
#include "or_gnu_text.h"

#include <string.h>

/* Return the byte for an escape, from behind its backslash on, and go behind it. (One with hexadecimal digits is refused by
 * Kobdzila's msgfmt.) */
static int escaped(struct part *rest) {
    static const char letters[] = "ntbrfva", bytes[] = "\n\t\b\r\f\v\a";
    int byte = (unsigned char)*rest->at++;
    const char *letter = byte ? strchr(letters, byte) : NULL;
    if (letter)
        return bytes[letter - letters];
    if (byte < '0' || byte > '7')
        return byte;
    byte -= '0';
    for (int digits = 1; digits < 3 && rest->at < rest->end && *rest->at >= '0' && *rest->at <= '7'; digits++)
        byte = 8 * byte + *rest->at++ - '0';
    return byte & 0xff;
}

struct spelled spelled(struct part strings) { return (struct spelled){strings, false}; }

int next_byte(struct spelled *strings) {
    struct part *rest = &strings->rest;
    while (rest->at < rest->end) {
        char byte = *rest->at++;
        if (byte == '"')
            strings->in_string = !strings->in_string;
        else if (strings->in_string)
            return byte == '\\' && rest->at < rest->end ? escaped(rest) : (unsigned char)byte;
    }
    return -1;
}

/* Add bytes to a hash. It is a polynomial, so that it doesn't depend on how a text is cut into strings. */
static uint64_t hash_bytes(uint64_t hash, struct part bytes) {
    enum { AT_ONCE = 4 };
    const uint64_t base = 0x9E3779B97F4A7C15, square = base * base, cube = square * base, fourth = cube * base;
    const unsigned char *at = (const unsigned char *)bytes.at, *end = (const unsigned char *)bytes.end;
    for (; end - at >= AT_ONCE; at += AT_ONCE)
        hash = hash * fourth + at[0] * cube + at[1] * square + at[2] * base + at[3];
    for (; at < end; at++)
        hash = hash * base + *at;
    return hash;
}

uint64_t hash_strings(uint64_t hash, struct part strings) {
    while (strings.at < strings.end) {
        struct part piece = {memchr(strings.at, '"', (size_t)(strings.end - strings.at)), strings.end};
        if (!piece.at)
            break;
        strings.at = ++piece.at;
        while (strings.at < strings.end && *strings.at != '"') {
            size_t left = (size_t)(strings.end - strings.at);
            const char *quote = memchr(strings.at, '"', left), *slash = memchr(strings.at, '\\', (size_t)(quote - strings.at));
            hash = hash_bytes(hash, (struct part){strings.at, slash ? slash : quote});
            strings.at = slash ? slash + 1 : quote;
            if (slash) {
                unsigned char byte = (unsigned char)escaped(&strings);
                hash = hash_bytes(hash, (struct part){(const char *)&byte, (const char *)&byte + 1});
            }
        }
        strings.at++;
    }
    return hash;
}

bool skip_behind(struct spelled *strings, const char *word) {
    const char *at = word;
    for (int byte; *at && (byte = next_byte(strings)) >= 0;) {
        if (byte != (unsigned char)*at)
            at = word;
        at += byte == (unsigned char)*at;
    }
    return !*at;
}

bool begins_with_newline(struct part string) {
    if (string.end - string.at < 2 || *string.at != '\\')
        return false;
    string.at++;
    return escaped(&string) == '\n';
}

/* A newline is always escaped, so it is the last escape. */
bool ends_with_newline(struct part string) {
    int byte = 0;
    if (string.at == string.end)
        return false;
    while (string.at < string.end) {
        const char *slash = memchr(string.at, '\\', (size_t)(string.end - string.at));
        if (!slash)
            return false;
        string.at = slash + 1;
        byte = string.at < string.end ? escaped(&string) : 0;
    }
    return byte == '\n';
}

static bool is_octal_escape(struct part text) {
    return text.end - text.at > 1 && text.at[0] == '\\' && text.at[1] >= '0' && text.at[1] <= '7';
}

bool may_have_digits_flag(struct part text) {
    for (const char *at = text.at; at && at < text.end && (at = memchr(at, '%', (size_t)(text.end - at)));) {
        for (at++; at < text.end && *at && strchr("0123456789$-+ #'I\"\t\n\r", *at); at++)
            if (*at == 'I')
                return true;
        if (is_octal_escape((struct part){at, text.end}))
            return true;
    }
    return false;
}

bool names_macro(struct part text) {
    for (const char *at = text.at; at && at < text.end && (at = memchr(at, '%', (size_t)(text.end - at)));) {
        for (at++; at < text.end && *at && strchr("0123456789$-+ #'I*.", *at);)
            at++;
        if (begins((struct part){at, text.end}, "<PRI"))
            return true;
    }
    return false;
}
