/* MO files whose keys are out of order, as some compilers write them (pybabel compile does if there are contexts). */
#define _POSIX_C_SOURCE 200809L /* fileno */
#include "sorted.h"

#include <stdio.h>
#include <stdlib.h>
#include <string.h>
#include <sys/stat.h>

enum { HEADER = 28, ROW = 8, COUNT_AT = 8, ORIGINALS_AT = 12, TRANSLATIONS_AT = 16, HASH_SIZE_AT = 20 };

/* An entry: its key, which ends before the first NUL, its number, and its rows in the two tables. */
struct row {
    const unsigned char *key;
    size_t len, number;
    unsigned char original[ROW], translation[ROW];
};

static size_t number_at(const unsigned char *at, int is_big) {
    return is_big ? (size_t)at[0] << 24 | (size_t)at[1] << 16 | (size_t)at[2] << 8 | at[3]
                  : (size_t)at[3] << 24 | (size_t)at[2] << 16 | (size_t)at[1] << 8 | at[0];
}

static void put_number(unsigned char *at, size_t number, int is_big) {
    for (int k = 0; k < 4; k++)
        at[is_big ? 3 - k : k] = (unsigned char)(number >> 8 * k);
}

/* Compare two entries by their keys' bytes, and by their numbers if these are the same. */
static int compare(const void *one, const void *other) {
    const struct row *a = one, *b = other;
    int order = memcmp(a->key, b->key, a->len < b->len ? a->len : b->len);
    if (order)
        return order;
    if (a->len != b->len)
        return a->len < b->len ? -1 : 1;
    return a->number < b->number ? -1 : a->number > b->number;
}

/* Read the rows of the two tables. Return 0 if they aren't whole inside the file. */
static int read_rows(const unsigned char *file, size_t len, int is_big, struct row *rows, size_t count) {
    size_t originals = number_at(file + ORIGINALS_AT, is_big), translations = number_at(file + TRANSLATIONS_AT, is_big);
    if (originals > len || translations > len || count > (len - originals) / ROW || count > (len - translations) / ROW)
        return 0;
    for (size_t k = 0; k < count; k++) {
        memcpy(rows[k].original, file + originals + k * ROW, ROW);
        memcpy(rows[k].translation, file + translations + k * ROW, ROW);
        size_t length = number_at(rows[k].original, is_big), at = number_at(rows[k].original + 4, is_big);
        if (at > len || length > len - at)
            return 0;
        const unsigned char *end = memchr(file + at, 0, length);
        rows[k].key = file + at;
        rows[k].len = end ? (size_t)(end - rows[k].key) : length;
        rows[k].number = k;
    }
    return 1;
}

/* Write the rows in their new order over the tables of a copy of the file. Of entries with one key the last is left. */
static void write_rows(unsigned char *copy, int is_big, const struct row *rows, size_t count) {
    unsigned char *originals = copy + number_at(copy + ORIGINALS_AT, is_big);
    unsigned char *translations = copy + number_at(copy + TRANSLATIONS_AT, is_big);
    size_t left = 0;
    for (size_t k = 0; k < count; k++) {
        if (k + 1 < count && rows[k].len == rows[k + 1].len && !memcmp(rows[k].key, rows[k + 1].key, rows[k].len))
            continue;
        memcpy(originals + left * ROW, rows[k].original, ROW);
        memcpy(translations + left++ * ROW, rows[k].translation, ROW);
    }
    put_number(copy + COUNT_AT, left, is_big);
    put_number(copy + HASH_SIZE_AT, 0, is_big);
}

unsigned char *sorted_mo(const unsigned char *file, size_t len) {
    if (len < HEADER)
        return NULL;
    int is_big = file[0] == 0x95;
    size_t count = number_at(file + COUNT_AT, is_big);
    if (count > len / (2 * ROW))
        return NULL;
    struct row *rows = calloc(count ? count : 1, sizeof *rows);
    unsigned char *copy = malloc(len);
    if (!rows || !copy || !read_rows(file, len, is_big, rows, count)) {
        free(rows);
        free(copy);
        return NULL;
    }
    qsort(rows, count, sizeof *rows, compare);
    memcpy(copy, file, len);
    write_rows(copy, is_big, rows, count);
    free(rows);
    return copy;
}

kob_catalogue *open_mo(const void *file, size_t len, kob_refusal *why) {
    kob_catalogue *opened = kob_open_mo(file, len, why);
    if (opened || why->fault != KOB_MO_ORDER)
        return opened;
    unsigned char *sorted = sorted_mo(file, len);
    if (sorted)
        opened = kob_open_mo(sorted, len, why);
    free(sorted);
    return opened;
}

/* Return the bytes of a regular file, which the caller frees, or NULL. */
static unsigned char *bytes_of_file(const char *name, size_t *len) {
    FILE *file = fopen(name, "rbe");
    if (!file)
        return NULL;
    struct stat status;
    unsigned char *bytes = NULL;
    if (!fstat(fileno(file), &status) && S_ISREG(status.st_mode) && (bytes = malloc((size_t)status.st_size + 1)))
        *len = fread(bytes, 1, (size_t)status.st_size, file);
    fclose(file);
    return bytes;
}

kob_catalogue *open_mo_file(const char *name, kob_refusal *why) {
    kob_catalogue *opened = kob_open_file(name, KOB_MO, 0, why);
    if (opened || why->fault != KOB_MO_ORDER)
        return opened;
    size_t len;
    unsigned char *bytes = bytes_of_file(name, &len);
    if (bytes)
        opened = open_mo(bytes, len, why);
    free(bytes);
    return opened;
}
