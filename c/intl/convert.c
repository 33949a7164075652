/* Converting a message to a codeset, as the C library does: by iconv with transliteration, all forms at once, so that a
 * message has all of them or none. No lock is held while iconv(3) runs or loads a module: a thread takes an idle
 * descriptor, or opens one, and leaves it to the others afterwards. None is ever closed. */
#define _POSIX_C_SOURCE 200809L
#include "intl.h"

#include <errno.h>
#include <iconv.h>
#include <stdio.h>
#include <stdlib.h>
#include <string.h>

static const char transliterated[] = "//TRANSLIT";

/* An idle descriptor. */
struct idle {
    struct idle *next;
    iconv_t descriptor;
    const struct codeset *to;
    char from[MOST_CHARSET + 1];
};
static struct idle *all_idle;

/* Bytes in a block from malloc. */
struct block {
    char *at;
    size_t len;
};

/* ---- descriptors */

/* Take an idle descriptor from the list; NULL if there is none. */
static struct idle *take_idle(const char *from, const struct codeset *to) {
    take_lock();
    struct idle **at = &all_idle;
    while (*at && ((*at)->to != to || strcmp((*at)->from, from)))
        at = &(*at)->next;
    struct idle *taken = *at;
    if (taken)
        *at = taken->next;
    leave_lock();
    return taken;
}

static void put_back(struct idle *idle) {
    take_lock();
    idle->next = all_idle;
    all_idle = idle;
    leave_lock();
}

/* Open a descriptor. `to` may say itself what to do with faults, as in `ISO-8859-1//IGNORE`. */
static enum conversion open_descriptor(const char *from, const char *to, iconv_t *descriptor) {
    char target[MOST_CHARSET + sizeof transliterated];
    strcpy(target, to);
    strcat(target, transliterated);
    if (!begin_opening())
        return NOT_CONVERTED;
    *descriptor = iconv_open(target, from);
    int cause = errno;
    end_opening();
    if (*descriptor != (iconv_t)-1)
        return CONVERTED;
    return cause == ENOMEM ? OUT_OF_MEMORY : NOT_CONVERTED;
}

static enum conversion new_descriptor(const char *from, const struct codeset *to, struct idle **made) {
    struct idle *idle = calloc(1, sizeof *idle);
    if (!idle)
        return OUT_OF_MEMORY;
    enum conversion opened = open_descriptor(from, name_of(to), &idle->descriptor);
    if (opened != CONVERTED) {
        free(idle);
        return opened;
    }
    idle->to = to;
    strcpy(idle->from, from);
    *made = idle;
    return CONVERTED;
}

/* ---- bytes */

/* Convert the bytes, with their NULs, to a new block. */
static enum conversion convert_bytes(iconv_t descriptor, struct block bytes, struct block *result) {
    size_t room = 2 * bytes.len + 16;
    for (;; room *= 2) {
        char *at = bytes.at, *to = malloc(room), *out = to;
        size_t left = bytes.len, out_left = room;
        if (!to)
            return OUT_OF_MEMORY;
        size_t said = iconv(descriptor, &at, &left, &out, &out_left);
        int cause = errno;
        if (said != (size_t)-1) {
            *result = (struct block){ to, (size_t)(out - to) };
            return CONVERTED;
        }
        free(to);
        iconv(descriptor, NULL, NULL, NULL, NULL);
        if (cause != E2BIG)
            return NOT_CONVERTED;
    }
}

static enum conversion convert_from(const char *from, struct block bytes, struct codeset *to, struct block *result) {
    struct idle *idle = take_idle(from, to);
    enum conversion conversion = idle ? CONVERTED : new_descriptor(from, to, &idle);
    if (conversion != CONVERTED)
        return conversion;
    conversion = convert_bytes(idle->descriptor, bytes, result);
    put_back(idle);
    return conversion;
}

/* ---- messages */

/* Put the forms of an entry, each with a NUL, into a new block. False if memory ran out. */
static int join_forms(const struct catalogue *c, size_t place, size_t forms, struct block *joined) {
    size_t most = 0;
    for (size_t i = 0; i < forms; i++)
        most += form_of(c, place, i).len + 1;
    *joined = (struct block){ malloc(most), 0 };
    for (size_t i = 0; joined->at && i < forms; i++) {
        kob_text form = form_of(c, place, i);
        char *to = joined->at + joined->len;
        if (c->is_coded)
            joined->len += decode(to, form.at, form.len);
        else
            joined->len += (size_t)((char *)memcpy(to, form.at, form.len) - to) + form.len;
        joined->at[joined->len++] = 0;
    }
    return joined->at != NULL;
}

static int is_kept(const struct catalogue *c, size_t place, size_t forms, const struct codeset *to) {
    for (size_t i = 0; i < forms; i++)
        if (!converted(to, form_of(c, place, i).at))
            return 0;
    return 1;
}

/* Under the lock: remember the forms of an entry, which the block has one after another. A form that isn't there is the
 * first one. */
static int keep_forms(const struct catalogue *c, size_t place, size_t forms, struct codeset *to, struct block block) {
    const char *at = block.at, *end = block.at + block.len;
    for (size_t i = 0; i < forms; i++) {
        if (!keep_converted(to, form_of(c, place, i).at, at < end ? at : block.at))
            return 0;
        at += at < end ? strnlen(at, (size_t)(end - at)) + 1 : 0;
    }
    return 1;
}

/* The block is kept forever, unless another thread was faster. */
static enum conversion keep(const struct catalogue *c, size_t place, size_t forms, struct codeset *to,
                            struct block block) {
    take_lock();
    int was_kept = is_kept(c, place, forms, to);
    int are_kept = was_kept || keep_forms(c, place, forms, to, block);
    leave_lock();
    if (was_kept)
        free(block.at);
    return are_kept ? CONVERTED : OUT_OF_MEMORY;
}

/* What the catalogue's texts are in. As in the C library, an empty name is the codeset of the thread's locale. */
static void copy_charset(const struct catalogue *c, char *to) {
    take_lock();
    snprintf(to, MOST_CHARSET + 1, "%s", *c->charset ? c->charset : locale_codeset());
    leave_lock();
}

enum conversion convert(const struct catalogue *c, const char *msgid, struct codeset *to) {
    size_t place;
    kob_entry entry;
    struct block joined, result;
    char from[MOST_CHARSET + 1];
    if (!find_place(c, msgid, &place, &entry) || !join_forms(c, place, entry.forms, &joined))
        return OUT_OF_MEMORY;
    copy_charset(c, from);
    if (!c->has_charset || is_same_codeset(from, name_of(to)))
        return keep(c, place, entry.forms, to, joined);
    enum conversion conversion = convert_from(from, joined, to, &result);
    free(joined.at);
    return conversion == CONVERTED ? keep(c, place, entry.forms, to, result) : conversion;
}
