/* The strings of MO files that libkobdzila refuses and the GNU C library reads: whose strings aren't UTF-8 and in no
 * charset that libkobdzila decodes; whose keys are out of order, as `pybabel compile` writes them if there are
 * contexts; and of later revisions. Its major revisions are 0 and 1, each with a minor one; 0.0 is GNU gettext manual,
 * "MO Files". From minor revision 1 on there must be a hash table, which isn't used here, and strings may have
 * system-dependent parts, such as the value of PRIu64; five more words of the header locate their tables.
 *
 * Nothing that a file says is trusted: all that is read is inside it, and strings that overlap can't make that more
 * than twice the file. */
#define _POSIX_C_SOURCE 200809L
#include "intl.h"

#include <stdlib.h>
#include <string.h>

#define MAGIC 0x950412deu
#define LAST_PART 0xffffffffu
#define MOST_PARTS 1000000

/* The words of the header, by their index. */
enum { REVISION = 1, STRINGS, ORIGINALS, TRANSLATIONS, HASH_SIZE, PARTS = 7, PART_TABLE, SYSTEM_STRINGS,
       SYSTEM_ORIGINALS, SYSTEM_TRANSLATIONS, HEADER_WORDS };

struct bytes {
    const unsigned char *at;
    size_t len;
    int is_swapped;   /* the file has the other byte order */
    uint64_t budget;  /* how many bytes of strings may still be read */
    const char **parts; /* their values; NULL for one that is unknown */
};

/* Whether `len` bytes at offset `from` are inside the file. */
static int holds(const struct bytes *file, uint64_t from, uint64_t len) {
    return from <= file->len && len <= file->len - from;
}

/* Read the word at an offset inside the file. */
static uint32_t word(const struct bytes *file, uint64_t from) {
    uint32_t value;
    memcpy(&value, file->at + from, sizeof value);
    return file->is_swapped ? __builtin_bswap32(value) : value;
}

static uint32_t in_header(const struct bytes *file, int which) { return word(file, 4u * (unsigned)which); }

static int spend(struct bytes *file, uint64_t len) {
    if (file->budget < len)
        return 0;
    file->budget -= len;
    return 1;
}

/* ---- strings of every revision */

struct string {
    const unsigned char *at;
    uint32_t len;
};

/* Add a row. The original is the msgid and, after a NUL, the plural; what follows another NUL is for no call. */
static void add_row(struct rows *rows, struct string original, struct string translation) {
    struct row *row = &rows->at[rows->count++];
    *row = (struct row){ .key = original.at, .text = translation.at, .text_len = translation.len };
    row->key_len = (uint32_t)strnlen((const char *)original.at, original.len);
    if (row->key_len < original.len)
        row->plural_room = 1 + (uint32_t)strlen((const char *)original.at + row->key_len + 1);
}

/* Read a string by its row of a table: it is inside the file, and a NUL follows. */
static int read_string(struct bytes *file, uint64_t row, struct string *string) {
    uint32_t len = word(file, row), at = word(file, row + 4);
    if (!spend(file, len) || !holds(file, at, (uint64_t)len + 1) || file->at[(uint64_t)at + len])
        return 0;
    *string = (struct string){ file->at + at, len };
    return 1;
}

static int read_plain_rows(struct bytes *file, struct rows *rows) {
    uint32_t count = in_header(file, STRINGS);
    uint64_t originals = in_header(file, ORIGINALS), translations = in_header(file, TRANSLATIONS);
    for (uint32_t i = 0; i < count; i++) {
        struct string original, translation;
        if (!read_string(file, originals + 8ull * i, &original) ||
            !read_string(file, translations + 8ull * i, &translation))
            return 0;
        add_row(rows, original, translation);
    }
    return 1;
}

/* ---- strings with system-dependent parts */

/* Read the names of the parts, which are inside the file and terminated by NUL. */
static enum reading read_parts(struct bytes *file) {
    uint32_t parts = in_header(file, PARTS), table = in_header(file, PART_TABLE);
    if (parts > MOST_PARTS || !holds(file, table, 8ull * parts))
        return NO_ROWS;
    file->parts = malloc((parts + 1ull) * sizeof *file->parts);
    if (!file->parts)
        return NO_MEMORY;
    for (uint32_t i = 0; i < parts; i++) {
        uint32_t len = word(file, table + 8ull * i), at = word(file, table + 8ull * i + 4);
        if (!len || !holds(file, at, len) || file->at[(uint64_t)at + len - 1])
            return NO_ROWS;
        file->parts[i] = part_value((const char *)file->at + at);
    }
    return ROWS_READ;
}

/* What a string with parts is: its length with their values, -1 if one of them is unknown, or -2 if it isn't sound. It is
 * an offset and pairs of a length and a part, and the last pair has no part. It ends with a NUL, which counts. */
static int64_t length_of(struct bytes *file, uint64_t at) {
    uint32_t parts = in_header(file, PARTS), part;
    if (!holds(file, at, 4))
        return -2;
    uint64_t text = word(file, at), pair = at + 4, len, whole = 0;
    int is_known = 1;
    do {
        if (!holds(file, pair, 8))
            return -2;
        len = word(file, pair);
        part = word(file, pair + 4);
        if (!holds(file, text, len) || !spend(file, len + 8) || (part >= parts && part != LAST_PART))
            return -2;
        const char *value = part == LAST_PART ? "" : file->parts[part];
        is_known &= value != NULL;
        whole += len + (value ? strlen(value) : 0);
        text += len;
        pair += 8;
    } while (part != LAST_PART);
    if (!len || file->at[text - 1])
        return -2;
    return is_known ? (int64_t)whole : -1;
}

/* Write a string whose length is known. Returns its end. */
static unsigned char *put_string(const struct bytes *file, uint64_t at, unsigned char *to) {
    uint64_t text = word(file, at), pair = at + 4;
    for (;; pair += 8) {
        uint32_t len = word(file, pair), part = word(file, pair + 4);
        memcpy(to, file->at + text, len);
        to += len;
        text += len;
        if (part == LAST_PART)
            return to;
        size_t more = strlen(file->parts[part]);
        memcpy(to, file->parts[part], more);
        to += more;
    }
}

/* The offsets of the two strings of a row with parts. */
struct offsets {
    uint32_t key, text;
};

static struct offsets offsets_of(const struct bytes *file, uint32_t i) {
    uint64_t originals = in_header(file, SYSTEM_ORIGINALS), translations = in_header(file, SYSTEM_TRANSLATIONS);
    return (struct offsets){ word(file, originals + 4ull * i), word(file, translations + 4ull * i) };
}

/* Write the strings of the rows whose parts are all known. `lengths` has two for each row. */
static void put_rows(const struct bytes *file, uint32_t count, const int64_t *lengths, struct rows *rows) {
    unsigned char *to = rows->made;
    for (uint32_t i = 0; i < count; i++) {
        if (lengths[2 * (size_t)i] < 0 || lengths[2 * (size_t)i + 1] < 0)
            continue;
        struct offsets from = offsets_of(file, i);
        struct string key = { to, (uint32_t)lengths[2 * (size_t)i] - 1 };
        to = put_string(file, from.key, to);
        struct string text = { to, (uint32_t)lengths[2 * (size_t)i + 1] - 1 };
        to = put_string(file, from.text, to);
        add_row(rows, key, text);
    }
}

static enum reading read_rows_with_lengths(struct bytes *file, int64_t *lengths, struct rows *rows) {
    uint32_t count = in_header(file, SYSTEM_STRINGS);
    uint64_t whole = 1;
    for (uint32_t i = 0; i < count; i++) {
        struct offsets from = offsets_of(file, i);
        int64_t key = length_of(file, from.key), text = length_of(file, from.text);
        if (key == -2 || text == -2)
            return NO_ROWS;
        lengths[2 * (size_t)i] = key;
        lengths[2 * (size_t)i + 1] = text;
        whole += key < 0 || text < 0 ? 0 : (uint64_t)key + (uint64_t)text;
    }
    rows->made = malloc(whole);
    if (!rows->made)
        return NO_MEMORY;
    put_rows(file, count, lengths, rows);
    return ROWS_READ;
}

static enum reading read_system_rows(struct bytes *file, struct rows *rows) {
    enum reading reading = read_parts(file);
    int64_t *lengths = NULL;
    if (reading == ROWS_READ) {
        lengths = malloc((in_header(file, SYSTEM_STRINGS) + 1ull) * 2 * sizeof *lengths);
        reading = lengths ? read_rows_with_lengths(file, lengths, rows) : NO_MEMORY;
    }
    free(lengths);
    free(file->parts);
    return reading;
}

/* ---- order */

/* By their keys, and equal ones as they came: compilers write strings in the order of their rows. */
static int compare(const void *a, const void *b) {
    const struct row *x = a, *y = b;
    int order = memcmp(x->key, y->key, x->key_len < y->key_len ? x->key_len : y->key_len);
    if (order)
        return order;
    return x->key_len != y->key_len ? (x->key_len < y->key_len ? -1 : 1) : (x->key > y->key) - (x->key < y->key);
}

static int is_same_key(const struct row *a, const struct row *b) {
    return a->key_len == b->key_len && !memcmp(a->key, b->key, a->key_len);
}

/* Merge the rows from `middle` on with those before; both are in order. Of rows with one key the first one stays: the C
 * library finds that one. */
static int merge(struct rows *rows, size_t middle) {
    struct row *merged = malloc((rows->count + 1) * sizeof *merged);
    if (!merged)
        return 0;
    size_t plain = 0, system = middle, count = 0;
    while (plain < middle || system < rows->count) {
        int is_plain = system == rows->count ||
                       (plain < middle && (is_same_key(&rows->at[plain], &rows->at[system]) ||
                                           compare(&rows->at[plain], &rows->at[system]) < 0));
        const struct row *next = &rows->at[is_plain ? plain++ : system++];
        if (!count || !is_same_key(&merged[count - 1], next))
            merged[count++] = *next;
    }
    free(rows->at);
    rows->at = merged;
    rows->count = count;
    return 1;
}

/* ---- all of it */

static enum reading read_all_rows(struct bytes *file, uint32_t system, struct rows *rows) {
    if (!read_plain_rows(file, rows))
        return NO_ROWS;
    size_t middle = rows->count;
    enum reading reading = system ? read_system_rows(file, rows) : ROWS_READ;
    if (reading != ROWS_READ)
        return reading;
    qsort(rows->at, middle, sizeof *rows->at, compare);
    qsort(rows->at + middle, rows->count - middle, sizeof *rows->at, compare);
    return merge(rows, middle) ? ROWS_READ : NO_MEMORY;
}

/* Whether the tables of the strings are inside the file, and aren't longer than it together. */
static int has_tables(const struct bytes *file, uint32_t system) {
    uint64_t strings = in_header(file, STRINGS);
    return 16 * strings + 8ull * system <= file->len && holds(file, in_header(file, ORIGINALS), 8 * strings) &&
           holds(file, in_header(file, TRANSLATIONS), 8 * strings) &&
           (!system || (holds(file, in_header(file, SYSTEM_ORIGINALS), 4ull * system) &&
                        holds(file, in_header(file, SYSTEM_TRANSLATIONS), 4ull * system)));
}

enum reading read_rows(const unsigned char *bytes, size_t len, struct rows *rows) {
    struct bytes file = { .at = bytes, .len = len, .budget = 2 * (uint64_t)len };
    *rows = (struct rows){ 0 };
    if (len < 4 * HEADER_WORDS)
        return NO_ROWS;
    file.is_swapped = in_header(&file, 0) != MAGIC;
    uint32_t revision = in_header(&file, REVISION), system = 0;
    if (revision & 0xffff)
        system = in_header(&file, SYSTEM_STRINGS);
    if (revision >> 16 > 1 || !has_tables(&file, system))
        return NO_ROWS;
    rows->at = malloc(((uint64_t)in_header(&file, STRINGS) + system + 1) * sizeof *rows->at);
    enum reading reading = rows->at ? read_all_rows(&file, system, rows) : NO_MEMORY;
    if (reading != ROWS_READ) {
        free(rows->at);
        free(rows->made);
        *rows = (struct rows){ 0 };
    }
    return reading;
}

/* The first words of a file that has them: so much is known of it. */
static struct bytes begin_of(const unsigned char *bytes) {
    struct bytes file = { .at = bytes, .len = 4 * (HASH_SIZE + 1) };
    file.is_swapped = in_header(&file, 0) != MAGIC;
    return file;
}

int is_revised(const unsigned char *bytes) {
    struct bytes file = begin_of(bytes);
    return in_header(&file, 0) == MAGIC && in_header(&file, REVISION);
}

int lacks_hash_table(const unsigned char *bytes) {
    struct bytes file = begin_of(bytes);
    return is_revised(bytes) && (in_header(&file, REVISION) & 0xffff) && in_header(&file, HASH_SIZE) <= 2;
}

const char *header_in(const unsigned char *bytes, size_t len) {
    struct bytes file = { .at = bytes, .len = len };
    file.is_swapped = in_header(&file, 0) != MAGIC;
    if (!in_header(&file, STRINGS))
        return NULL;
    const char *key = (const char *)bytes + word(&file, in_header(&file, ORIGINALS) + 4ull);
    return *key ? NULL : (const char *)bytes + word(&file, in_header(&file, TRANSLATIONS) + 4ull);
}
