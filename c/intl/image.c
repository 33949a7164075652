/* MO files of revision 0 (GNU gettext manual, "MO Files"), made of the rows of another file, for libkobdzila to open. What
 * it would refuse and the C library reads is put right: an original with two plurals has the first one, and one without a
 * plural has an empty one if its translation has several forms.
 *
 * libkobdzila takes UTF-8, and a catalogue may have any bytes. So strings can be coded. In a text, a byte from 0x80 on is
 * the character of this number; in a key, each byte is the character of its number plus 0x100, so that the order of keys
 * stays, and byte 4 isn't special. The header has the empty key, and its plural rule counts. Its charset doesn't: there it
 * reads `Charset=`. The header as it was has the key `h`, which no coded msgid has. */
#define _GNU_SOURCE
#include "intl.h"

#include <stdlib.h>
#include <string.h>

#define MAGIC 0x950412deu
#define HEADER_BYTES 28

static const char header_key[] = "h";

/* ---- coding */

static unsigned char *code_byte(unsigned char *to, unsigned code) {
    *to++ = (unsigned char)(0xc0 | code >> 6);
    *to++ = (unsigned char)(0x80 | (code & 0x3f));
    return to;
}

static unsigned char *code_key_bytes(unsigned char *to, const unsigned char *key, size_t len) {
    for (size_t i = 0; i < len; i++)
        to = code_byte(to, 0x100u + key[i]);
    return to;
}

static unsigned char *code_text(unsigned char *to, const unsigned char *text, size_t len) {
    for (size_t i = 0; i < len; i++)
        if (text[i] < 0x80)
            *to++ = text[i];
        else
            to = code_byte(to, text[i]);
    return to;
}

size_t code_key(char *to, const char *msgid) {
    if (!*msgid)
        return (size_t)(stpcpy(to, header_key) - to);
    return (size_t)(code_key_bytes((unsigned char *)to, (const unsigned char *)msgid, strlen(msgid)) -
                    (unsigned char *)to);
}

size_t decode(char *to, const char *text, size_t len) {
    const unsigned char *at = (const unsigned char *)text, *end = at + len;
    char *out = to;
    while (at < end)
        if (*at < 0x80)
            *out++ = (char)*at++;
        else {
            *out++ = (char)((*at & 3) << 6 | (at[1] & 0x3f));
            at += 2;
        }
    return (size_t)(out - to);
}

/* ---- the file */

static size_t coded_text_length(const unsigned char *text, size_t len) {
    size_t more = 0;
    for (size_t i = 0; i < len; i++)
        more += text[i] >= 0x80;
    return len + more;
}

static int is_header(const struct row *row) { return !row->key_len; }

/* Whether the text has several forms, and needs a plural. */
static int needs_plural(const struct row *row) { return memchr(row->text, 0, row->text_len) != NULL; }

/* What a row takes at most, without its rows in the tables. */
static uint64_t size_of(const struct row *row, int is_coded) {
    uint64_t text = is_coded ? coded_text_length(row->text, row->text_len) : row->text_len;
    uint64_t key = is_coded ? 2ull * row->key_len : row->key_len;
    uint64_t plural = row->plural_room + 1u, whole = key + plural + text + 2;
    return is_coded && is_header(row) ? 2 * whole + sizeof header_key : whole;
}

struct writing {
    unsigned char *file, *at, *originals, *translations;
};

static void put_word(unsigned char **to, size_t word) {
    for (int i = 0; i < 4; i++)
        *(*to)++ = (unsigned char)(word >> 8 * i);
}

/* End the string that began at `from`: put it into a table, and a NUL after it. */
static void end_string(struct writing *w, unsigned char **table, const unsigned char *from) {
    put_word(table, (size_t)(w->at - from));
    put_word(table, (size_t)(from - w->file));
    *w->at++ = 0;
}

/* A plural doesn't count in a look-up, so that of a coded row is empty. */
static void put_key(struct writing *w, const struct row *row, int is_coded) {
    const unsigned char *from = w->at;
    if (is_coded)
        w->at = code_key_bytes(w->at, row->key, row->key_len);
    else
        w->at = (unsigned char *)mempcpy(w->at, row->key, row->key_len);
    if (row->plural_room || needs_plural(row))
        *w->at++ = 0;
    if (row->plural_room > 1 && !is_coded)
        w->at = (unsigned char *)mempcpy(w->at, row->key + row->key_len + 1, row->plural_room - 1);
    end_string(w, &w->originals, from);
}

static void put_text(struct writing *w, const struct row *row, int is_coded) {
    const unsigned char *from = w->at;
    if (is_coded)
        w->at = code_text(w->at, row->text, row->text_len);
    else
        w->at = (unsigned char *)mempcpy(w->at, row->text, row->text_len);
    end_string(w, &w->translations, from);
}

/* Take the charset from the coded text that was written last. */
static void hide_charset(unsigned char *text) {
    for (char *at = (char *)text; (at = strstr(at, "charset="));)
        *at = 'C';
}

static void put_coded_header(struct writing *w, const struct row *row) {
    put_key(w, row, 1);
    unsigned char *text = w->at;
    put_text(w, row, 1);
    hide_charset(text);
    const unsigned char *from = w->at;
    w->at = (unsigned char *)mempcpy(w->at, header_key, sizeof header_key - 1);
    if (needs_plural(row))
        *w->at++ = 0;
    end_string(w, &w->originals, from);
    put_text(w, row, 1);
}

/* Return the length of the file. */
static size_t put_file(unsigned char *file, const struct rows *rows, size_t count, int is_coded) {
    unsigned char *at = file;
    const size_t words[] = { MAGIC, 0, count, HEADER_BYTES, HEADER_BYTES + 8 * count, 0, HEADER_BYTES + 16 * count };
    for (size_t i = 0; i < sizeof words / sizeof *words; i++)
        put_word(&at, words[i]);
    struct writing w = { file, file + HEADER_BYTES + 16 * count, file + HEADER_BYTES, file + HEADER_BYTES + 8 * count };
    for (size_t i = 0; i < rows->count; i++) {
        const struct row *row = &rows->at[i];
        if (is_coded && is_header(row)) {
            put_coded_header(&w, row);
            continue;
        }
        put_key(&w, row, is_coded);
        put_text(&w, row, is_coded);
    }
    return (size_t)(w.at - file);
}

unsigned char *image_of(const struct rows *rows, int is_coded, size_t *len) {
    size_t count = rows->count;
    uint64_t strings = 0;
    for (size_t i = 0; i < rows->count; i++) {
        count += is_coded && is_header(&rows->at[i]);
        strings += size_of(&rows->at[i], is_coded);
    }
    uint64_t most = HEADER_BYTES + 16ull * count + strings;
    *len = most > MOST_MO ? 0 : (size_t)most;
    unsigned char *file = *len ? malloc(*len) : NULL;
    if (file)
        *len = put_file(file, rows, count, is_coded);
    return file;
}
