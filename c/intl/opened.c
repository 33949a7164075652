/* The catalogue of an MO file's bytes. Most are opened by libkobdzila, which decodes most charsets. Some of those that
 * it refuses the C library reads: in other charsets, of later revisions, with odd forms, with keys out of order. Of
 * these a file is made that libkobdzila takes, so that no catalogue is ever shown to the C library, which trusts its
 * files. */
#define _GNU_SOURCE
#include "intl.h"

#include <stdlib.h>
#include <string.h>

#define LEAST_MO 48 /* the C library refuses shorter files */
#define END_OF_CHARSET " \t\n"

/* Return the header, which in a coded catalogue is as it was in the file; none if there is none. */
static kob_text header_of(const kob_catalogue *held, int is_coded) {
    const kob_text none = { NULL, 0 };
    char key[8];
    return kob_find(held, none, (kob_text){ key, is_coded ? code_key(key, "") : 0 }, NULL);
}

/* Take the charset from a header, as the C library finds it. False if its name is too long to be one. */
static int take_charset(struct catalogue *c, const char *header) {
    const char *charset = header ? strstr(header, "charset=") : NULL;
    if (!charset)
        return 1;
    charset += strlen("charset=");
    size_t len = strcspn(charset, END_OF_CHARSET);
    if (len > MOST_CHARSET)
        return 0;
    c->has_charset = 1;
    memcpy(c->charset, charset, len);
    return 1;
}

static int is_ascii_text(kob_text text) {
    for (size_t i = 0; i < text.len; i++)
        if ((unsigned char)text.at[i] >= 0x80)
            return 0;
    return 1;
}

static int are_texts_ascii(const kob_catalogue *held) {
    kob_entry entry;
    for (size_t place = 0; kob_entry_at(held, place, &entry); place++)
        for (size_t form = 0; form < entry.forms; form++)
            if (!is_ascii_text(kob_form_at(held, place, form)))
                return 0;
    return 1;
}

/* Whether the texts of a catalogue that isn't coded are in its charset: they are UTF-8. */
static int are_texts_in_charset(const struct catalogue *c) {
    return !c->has_charset || is_utf8(c->charset) || (is_ascii(c->charset) && are_texts_ascii(c->held));
}

/* Open the bytes as a catalogue, whose strings are coded or are UTF-8. *fault is why libkobdzila refused them. */
static enum standing open_held(const unsigned char *bytes, size_t len, int is_coded, struct catalogue **catalogue,
                               enum kob_fault *fault) {
    kob_refusal why;
    kob_catalogue *held = kob_open_mo(bytes, len, &why);
    struct catalogue *c = held ? calloc(1, sizeof *c) : NULL;
    *fault = why.fault;
    if (!c) {
        kob_release(held);
        return held || why.fault == KOB_MEMORY ? UNREAD : MISSING;
    }
    c->held = held;
    c->is_coded = is_coded;
    if (take_charset(c, header_of(held, is_coded).at) && (is_coded || are_texts_in_charset(c))) {
        *catalogue = c;
        return TAKEN;
    }
    kob_release(held);
    free(c);
    return MISSING;
}

/* ---- files that libkobdzila opens */

/* Whether libkobdzila left the texts of a file as they are. */
static int is_as_filed(const char *header, const char *own) { return !header || (own && !strcmp(header, own)); }

/* Whether programs find the messages of a catalogue whose keys were decoded: they ask with the bytes of the file. */
static int are_keys_ascii(const kob_catalogue *held) {
    kob_entry entry;
    for (size_t place = 0; kob_entry_at(held, place, &entry); place++)
        if (!is_ascii_text(entry.context) || !is_ascii_text(entry.msgid))
            return 0;
    return 1;
}

/* Return the decoded header with the charset of the file's own one, which is what gettext answers for the empty msgid;
 * NULL if they differ otherwise, or memory runs out. Here the charset's name is what the C library takes for it. */
static char *header_as_filed(kob_text decoded, const char *own) {
    static const char charset[] = "charset=", here[] = "UTF-8";
    const char *at = strstr(decoded.at, charset), *from = strstr(own, charset);
    if (!at || !from || strlen(decoded.at) != decoded.len)
        return NULL;
    at += strlen(charset);
    from += strlen(charset);
    size_t before = (size_t)(at - decoded.at), name = strcspn(from, END_OF_CHARSET), len = strlen(here);
    if (strcspn(at, END_OF_CHARSET) != len || strncmp(at, here, len) || !strncmp(from, here, len))
        return NULL;
    char *header = malloc(decoded.len + name + 1);
    if (header)
        strcpy(mempcpy(mempcpy(header, decoded.at, before), from, name), at + len);
    return header;
}

/* Whether the file's own charset has characters that share a code point, as BIG5 has ten pairs: what is decoded of it
 * can't be converted back to the bytes of the file. */
static int shares_code_points(const char *own) {
    static const char *const names[] = { "BIG5", "BIG-5", "BIGFIVE", "BIG-FIVE", "CN-BIG5", "CP950" };
    struct catalogue file = { .has_charset = 0 };
    for (size_t i = 0; take_charset(&file, own) && file.has_charset && i < sizeof names / sizeof *names; i++)
        if (is_same_codeset(file.charset, names[i]))
            return 1;
    return 0;
}

/* Open the bytes as they are, or decoded. *fault is why libkobdzila refused them, or why they have to be read by rows. */
static enum standing open_plain(const unsigned char *bytes, size_t len, struct catalogue **catalogue,
                                enum kob_fault *fault) {
    enum standing standing = open_held(bytes, len, 0, catalogue, fault);
    if (standing != TAKEN)
        return standing;
    struct catalogue *c = *catalogue;
    kob_text header = header_of(c->held, 0);
    const char *own = header_in(bytes, len);
    if (is_as_filed(header.at, own))
        return TAKEN;
    int is_decoded = own && are_keys_ascii(c->held) && !shares_code_points(own);
    c->header = is_decoded ? header_as_filed(header, own) : NULL;
    if (c->header)
        return TAKEN;
    kob_release(c->held);
    free(c);
    *catalogue = NULL;
    *fault = KOB_MO_CHARSET;
    return MISSING;
}

/* ---- files that are read by rows */

static enum standing open_image(const struct rows *rows, int is_coded, struct catalogue **catalogue) {
    enum kob_fault fault;
    size_t len;
    unsigned char *image = image_of(rows, is_coded, &len);
    if (!image)
        return len ? UNREAD : MISSING;
    enum standing standing = open_held(image, len, is_coded, catalogue, &fault);
    free(image);
    return standing;
}

/* Open the rows as UTF-8, if they may be, or else as they are. The header is the first row, if there is one. */
static enum standing open_rows(const struct rows *rows, struct catalogue **catalogue) {
    struct catalogue header = { .has_charset = 0 };
    if (rows->count && !rows->at->key_len && !take_charset(&header, (const char *)rows->at->text))
        return MISSING;
    int may_be_utf8 = !header.has_charset || is_utf8(header.charset) || is_ascii(header.charset);
    enum standing standing = may_be_utf8 ? open_image(rows, 0, catalogue) : MISSING;
    return standing == MISSING ? open_image(rows, 1, catalogue) : standing;
}

/* Whether the C library may read a file of revision 0.0 that libkobdzila refuses like this: it reports these faults only
 * once it knows that all strings are inside the file. */
static int may_be_read(enum kob_fault fault) {
    return fault == KOB_NO_FAULT || fault == KOB_MO_REVISION || fault == KOB_MO_BAD_TEXT || fault == KOB_MO_FORMS ||
           fault == KOB_MO_ORDER || fault == KOB_MO_CHARSET || fault == KOB_MO_NO_CHARACTER;
}

static enum standing open_by_rows(const unsigned char *bytes, size_t len, struct catalogue **catalogue) {
    struct rows rows;
    enum reading reading = read_rows(bytes, len, &rows);
    if (reading != ROWS_READ)
        return reading == NO_MEMORY ? UNREAD : MISSING;
    enum standing standing = open_rows(&rows, catalogue);
    free(rows.at);
    free(rows.made);
    return standing;
}

/* (A file with a revision is read by rows whatever libkobdzila says: rows.c trusts no file either.) */
enum standing opened(const unsigned char *bytes, size_t len, struct catalogue **catalogue) {
    /* of a file that is too large, there is nothing in `bytes` */
    if (len < LEAST_MO || len > MOST_MO || lacks_hash_table(bytes))
        return MISSING;
    enum kob_fault fault;
    enum standing standing = open_plain(bytes, len, catalogue, &fault);
    if (standing != MISSING || !(is_revised(bytes) || may_be_read(fault)))
        return standing;
    return open_by_rows(bytes, len, catalogue);
}
