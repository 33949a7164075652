/* Look-ups in one catalogue. */
#define _POSIX_C_SOURCE 200809L
#include "intl.h"

#include <stdlib.h>
#include <string.h>

#define ROOM 512

/* A msgid as the catalogue has it, in `room` or in a block of its own. */
struct key {
    kob_text text;
    char *made;
    char room[ROOM];
};

/* False if memory ran out. */
static int make_key(struct key *key, const struct catalogue *c, const char *msgid) {
    size_t len = strlen(msgid);
    key->made = NULL;
    key->text = (kob_text){ msgid, len };
    if (!c->is_coded)
        return 1;
    char *to = key->room;
    if (2 * len + 2 > sizeof key->room) {
        to = key->made = malloc(2 * len + 2);
        if (!to)
            return 0;
    }
    key->text = (kob_text){ to, code_key(to, msgid) };
    return 1;
}

const char *text_of(const struct catalogue *c, const struct question *q) {
    const kob_text none = { NULL, 0 };
    if (c->header && !*q->msgid)
        return c->header;
    unsigned long long n = q->n ? *q->n : 0;
    struct key key;
    if (!make_key(&key, c, q->msgid))
        return NULL;
    const char *text = kob_find(c->held, none, key.text, q->n ? &n : NULL).at;
    free(key.made);
    return text;
}

kob_text form_of(const struct catalogue *c, size_t place, size_t form) {
    if (c->header && !place) /* (the empty msgid comes first) */
        return (kob_text){ c->header, strlen(c->header) };
    return kob_form_at(c->held, place, form);
}

/* Compare the first bytes of the key with a part of an entry's key, and skip them. */
static int compare_part(kob_text *key, const char *part, size_t len) {
    size_t shared = key->len < len ? key->len : len;
    int order = memcmp(key->at, part, shared);
    if (order || key->len < len)
        return order ? order : -1;
    key->at += shared;
    key->len -= shared;
    return 0;
}

/* Compare a key, which is a msgid or a context, byte 4 and a msgid, with an entry's. */
static int compare_key(kob_text key, const kob_entry *entry) {
    if (entry->context.at) {
        int order = compare_part(&key, entry->context.at, entry->context.len);
        order = order ? order : compare_part(&key, "\4", 1);
        if (order)
            return order;
    }
    int order = compare_part(&key, entry->msgid.at, entry->msgid.len);
    return order ? order : key.len > 0;
}

int find_place(const struct catalogue *c, const char *msgid, size_t *place, kob_entry *entry) {
    struct key key;
    if (!make_key(&key, c, msgid))
        return 0;
    size_t from = 0, to = kob_count(c->held);
    int is_found = 0;
    while (from < to && !is_found) {
        *place = from + (to - from) / 2;
        int order = kob_entry_at(c->held, *place, entry) ? compare_key(key.text, entry) : -1;
        is_found = !order;
        if (order < 0)
            to = *place;
        else
            from = *place + 1;
    }
    free(key.made);
    return is_found;
}
