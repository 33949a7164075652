/* The keys of entries: an obsolete entry counts for GNU msgfmt, which refuses two entries with one key. */
#include "or_gnu_text.h"

#include <stdlib.h>

struct key {
    uint64_t hash;
    struct part context, id;
};

void add_key(struct keys *keys, const struct entry *entry) {
    enum { FIRST_ROOM = 256 };
    if (keys->count == keys->room) {
        size_t room = keys->room ? 2 * keys->room : FIRST_ROOM;
        struct key *at = realloc(keys->at, room * sizeof *at);
        keys->has_failed |= !at;
        if (!at)
            return;
        keys->at = at;
        keys->room = room;
    }
    uint64_t hash = hash_strings(hash_strings(1, entry->context) + 1, entry->id);
    struct key *to = &keys->at[keys->count++];
    if (entry->is_obsolete) { /* (those come first) */
        *to = keys->at[keys->obsolete];
        to = &keys->at[keys->obsolete++];
    }
    *to = (struct key){hash, entry->context, entry->id};
}

static int by_hash(const void *one, const void *two) {
    const struct key *first = one, *second = two;
    return (first->hash > second->hash) - (first->hash < second->hash);
}

static bool are_equal(struct part one, struct part two) {
    struct spelled first = spelled(one), second = spelled(two);
    int byte;
    do
        if ((byte = next_byte(&first)) != next_byte(&second))
            return false;
    while (byte >= 0);
    return true;
}

static bool is_same(const struct key *one, const struct key *two) {
    return one->hash == two->hash && !one->context.at == !two->context.at && are_equal(one->context, two->context) &&
           are_equal(one->id, two->id);
}

/* Whether a key is among the obsolete ones, which are sorted; it isn't compared with itself. */
static bool is_among(const struct keys *keys, const struct key *key) {
    const struct key *end = keys->at + keys->obsolete;
    const struct key *found = bsearch(key, keys->at, keys->obsolete, sizeof *key, by_hash);
    while (found && found > keys->at && found[-1].hash == key->hash)
        found--;
    for (; found && found < end && found->hash == key->hash; found++)
        if (found != key && is_same(found, key))
            return true;
    return false;
}

bool has_obsolete_repeat(struct keys *keys) {
    bool is_found = false;
    if (keys->obsolete)
        qsort(keys->at, keys->obsolete, sizeof *keys->at, by_hash);
    for (size_t place = 0; place < keys->count && keys->obsolete && !is_found; place++)
        is_found = is_among(keys, &keys->at[place]);
    free(keys->at);
    *keys = (struct keys){0};
    return is_found;
}
