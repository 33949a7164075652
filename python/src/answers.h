/* What a catalogue keeps of its answers, so that a text is decoded once and a repeated look-up is short. */
#ifndef ANSWERS_H
#define ANSWERS_H

#define PY_SSIZE_T_CLEAN
#define Py_LIMITED_API 0x030a0000
#include <Python.h>

#include <stdint.h>

#include <kobdzila.h>

/* Texts as str, in a hash table with linear probing, of which at most three quarters are used. A key is a number that no
 * other text of these answers has. A text is kept when it is asked for a second time, so messages that are asked for
 * once aren't kept. When the table has MOST_ANSWERS, it takes no more texts until it was asked for others twice as
 * often as there are entries; then it begins anew. So a program that goes through all messages again and again finds
 * the same ones in it each time. */
enum { LEAST_BITS = 5, MOST_ANSWERS = 4096 };

struct answer {
    uint64_t key;
    PyObject *text; /* NULL: a free slot */
};

/* An answer by the str objects of the call, which are often the constants of a program: a text, or None if it is known
 * that there is none. It is in one of the NEAR slots
 * that begin at the place of these objects; if they are all used, a new answer displaces one of them. The table grows
 * when known texts were often asked for by objects that it doesn't have, so not when each message is asked for once. It
 * has at most 2 slots for each entry of the catalogue. */
enum { LEAST_RECENT_BITS = 6, NEAR = 8 };

struct recent {
    PyObject *msgid, *context; /* exact str objects; the context may be NULL. No msgid: a free slot */
    size_t form; /* the number of the form, or the number that chooses one */
    PyObject *text;
};

/* The forms that small numbers take. They are learned from the library, by asking for an entry that has every form,
 * since a look-up with a number takes several times as long as one without. */
enum { SMALL = 128, UNKNOWN = 255 };

struct rule {
    enum { NOT_LOOKED_AT, NO_PLURALS, NO_WITNESS, HAS_WITNESS } state;
    size_t witness;             /* the number of that entry */
    unsigned char forms[SMALL]; /* or UNKNOWN */
};

struct answers {
    size_t entries;       /* of the catalogue, or the most that may be asked for */
    unsigned char *asked; /* NULL, or a bit for each of 1 << asked_bits kinds of keys: it was asked for once */
    struct answer *slots; /* NULL, or 1 << bits of them */
    size_t used, missed; /* `missed` counts while the table takes no more */
    unsigned asked_bits, bits, recent_bits;
    struct recent *recents; /* NULL, or room_of(recent_bits) of them */
    size_t lacked;          /* how often a known text wasn't among them since they grew */
    unsigned turn;          /* decides which of NEAR slots is displaced if all are used */
    struct rule rule;
};

/* Return a text that was kept, as a new reference, or NULL. */
PyObject *known_answer(const struct answers *answers, uint64_t key);

/* Return a text as str, a new reference, and keep it if it was asked for before. NULL: an exception. */
PyObject *new_answer(struct answers *answers, uint64_t key, kob_text text);

/* Keep an answer by the objects of the call. `was_known` says whether known_answer returned its text. */
void keep_recent(struct answers *answers, const struct recent *answer, int was_known);

/* Forget all answers, and what is known of the plural rule. */
void forget(struct answers *answers);

/* Learn which form `n` takes. Return its number, or UNKNOWN: the library is then asked with `n`. */
unsigned char learn_form(struct rule *rule, const kob_catalogue *held, unsigned long long n);

static inline unsigned char form_for(struct answers *answers, const kob_catalogue *held, unsigned long long n) {
    struct rule *rule = &answers->rule;
    if (rule->state == HAS_WITNESS && n < SMALL && rule->forms[n] != UNKNOWN)
        return rule->forms[n];
    return rule->state == NO_PLURALS ? 0 : learn_form(rule, held, n);
}

/* Return a number whose upper bits depend on all bits of the key. One product would leave addresses at some distances
 * close together. */
static inline uint64_t mixed(uint64_t key) {
    key *= UINT64_C(0x9E3779B97F4A7C15);
    return (key ^ key >> 32) * UINT64_C(0x9E3779B97F4A7C15);
}

/* Return the first of the slots where an answer may be. */
static inline struct recent *recent_slots(struct recent *recents, unsigned bits, PyObject *context, PyObject *msgid,
                                          size_t form) {
    uint64_t key = (uint64_t)(uintptr_t)msgid + ((uint64_t)(uintptr_t)context << 1) + ((uint64_t)form << 48);
    return &recents[mixed(key) >> (64 - bits)];
}

/* Return the answer to a recent call with these very objects, as a new reference, or NULL. */
static inline PyObject *recent_answer(const struct answers *answers, PyObject *context, PyObject *msgid, size_t form) {
    if (!answers->recents)
        return NULL;
    const struct recent *slot = recent_slots(answers->recents, answers->recent_bits, context, msgid, form);
    for (int k = 0; k < NEAR && slot[k].msgid; k++)
        if (slot[k].msgid == msgid && slot[k].context == context && slot[k].form == form)
            return Py_NewRef(slot[k].text);
    return NULL;
}

#endif
