/* Codesets that texts were wanted in, and the texts that were converted to each, by the text in its catalogue. Texts are
 * added under the lock, and found without it: a table is never changed but for empty slots, and a full one is replaced by
 * a larger one and kept, since another thread may be in it. */
#define _POSIX_C_SOURCE 200809L
#include "intl.h"

#include <stdatomic.h>
#include <stdlib.h>
#include <string.h>

#define FIRST_SLOTS 64

/* Its slots are filled in the order `as`, `text`. */
struct slot {
    _Atomic(const char *) text, as;
};
struct table {
    struct table *smaller;
    size_t slots, count; /* slots: a power of two */
    struct slot slot[];
};
struct codeset {
    struct named named;
    _Atomic(struct table *) table;
};

static struct named *codesets;

/* ---- names */

/* Return the next character of a name that counts: the C library drops others, and compares without case. 0 at the end,
 * or where what to do with faults begins, as in `ISO-8859-1//IGNORE`. */
static char next_of(const char **name) {
    for (;; ++*name) {
        char c = **name;
        if (!c || (c == '/' && (*name)[1] == '/'))
            return 0;
        if (c >= 'a' && c <= 'z')
            c = (char)(c - 'a' + 'A');
        if ((c >= 'A' && c <= 'Z') || (c >= '0' && c <= '9') || strchr("_-.,:/", c))
            return ++*name, c;
    }
}

static int is_equal(const char *a, const char *b) {
    if (!strcmp(a, b))
        return 1;
    for (;;) {
        char c = next_of(&a);
        if (c != next_of(&b))
            return 0;
        if (!c)
            return 1;
    }
}

int is_utf8(const char *codeset) { return is_equal(codeset, "UTF-8") || is_equal(codeset, "UTF8"); }

int is_ascii(const char *codeset) { return is_equal(codeset, "ASCII") || is_equal(codeset, "US-ASCII"); }

int is_same_codeset(const char *a, const char *b) {
    return is_equal(a, b) || (is_utf8(a) && is_utf8(b)) || (is_ascii(a) && is_ascii(b));
}

int is_as_wanted(const struct catalogue *c, const char *codeset) {
    return !c->has_charset || is_same_codeset(c->charset, codeset) || (is_ascii(c->charset) && is_utf8(codeset));
}

struct codeset *codeset_named(const char *name) {
    if (strlen(name) > MOST_CHARSET)
        return NULL;
    return (struct codeset *)find_or_add_named(&codesets, name, sizeof(struct codeset));
}

const char *name_of(const struct codeset *codeset) { return codeset->named.name; }

/* ---- texts */

/* Return the slot of the text, or the empty one where it would be. Some slot is empty. */
static struct slot *slot_of(struct table *t, const char *text) {
    size_t at = (size_t)((uintptr_t)text * 0x9e3779b97f4a7c15u >> 20);
    for (;; at++) {
        struct slot *s = &t->slot[at & (t->slots - 1)];
        const char *there = atomic_load_explicit(&s->text, memory_order_acquire);
        if (!there || there == text)
            return s;
    }
}

const char *converted(const struct codeset *codeset, const char *text) {
    struct table *t = atomic_load_explicit(&codeset->table, memory_order_acquire);
    struct slot *s = t ? slot_of(t, text) : NULL;
    /* (one that was empty may get another text meanwhile) */
    int is_there = s && atomic_load_explicit(&s->text, memory_order_acquire) == text;
    return is_there ? atomic_load_explicit(&s->as, memory_order_relaxed) : NULL;
}

static void put(struct table *t, const char *text, const char *as) {
    struct slot *s = slot_of(t, text);
    if (atomic_load_explicit(&s->text, memory_order_relaxed))
        return; /* another thread has converted it as well */
    atomic_store_explicit(&s->as, as, memory_order_relaxed);
    atomic_store_explicit(&s->text, text, memory_order_release);
    t->count++;
}

/* Return a table with the same texts and room for more; NULL if memory runs out. */
static struct table *larger(struct table *old) {
    size_t slots = old ? 2 * old->slots : FIRST_SLOTS;
    struct table *t = calloc(1, sizeof *t + slots * sizeof *t->slot);
    if (!t)
        return NULL;
    t->smaller = old;
    t->slots = slots;
    for (size_t i = 0; old && i < old->slots; i++) {
        const char *text = atomic_load_explicit(&old->slot[i].text, memory_order_relaxed);
        if (text)
            put(t, text, atomic_load_explicit(&old->slot[i].as, memory_order_relaxed));
    }
    return t;
}

int keep_converted(struct codeset *codeset, const char *text, const char *as) {
    struct table *t = atomic_load_explicit(&codeset->table, memory_order_relaxed);
    if (!t || t->count >= t->slots / 2) {
        t = larger(t);
        if (!t)
            return 0;
        atomic_store_explicit(&codeset->table, t, memory_order_release);
    }
    put(t, text, as);
    return 1;
}
