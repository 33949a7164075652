/* The answers that a catalogue keeps, and the forms of small numbers. */
#include "answers.h"

#include <stdlib.h>
#include <string.h>

/* Return the slot of this answer: its own, or the free one where it belongs. */
static struct answer *slot_of(struct answer *slots, unsigned bits, uint64_t key) {
    size_t mask = ((size_t)1 << bits) - 1;
    size_t index = (size_t)(mixed(key) >> (64 - bits));
    while (slots[index].text && slots[index].key != key)
        index = (index + 1) & mask;
    return &slots[index];
}

/* Return whether a key was asked for before, or another one of its kind, and note that it was. */
static int was_asked(struct answers *answers, uint64_t key) {
    if (!answers->asked) {
        answers->asked_bits = 6;
        while ((size_t)1 << answers->asked_bits < 4 * answers->entries)
            answers->asked_bits++;
        answers->asked = PyMem_Calloc((size_t)1 << (answers->asked_bits - 3), 1);
        if (!answers->asked)
            return 0;
    }
    size_t kind = (size_t)(mixed(key) >> (64 - answers->asked_bits));
    unsigned char bit = (unsigned char)(1 << (kind & 7)), *bits = &answers->asked[kind >> 3];
    int is_set = (*bits & bit) != 0;
    *bits |= bit;
    return is_set;
}

/* Forget the texts, whose references may be the last ones. */
static void forget_texts(struct answers *answers) {
    for (size_t k = 0; answers->slots && k < (size_t)1 << answers->bits; k++)
        Py_XDECREF(answers->slots[k].text);
    PyMem_Free(answers->slots);
    answers->slots = NULL;
    answers->used = answers->missed = 0;
    answers->bits = 0;
}

/* Make room for one more answer. Return 0, or -1 if it can't be kept. */
static int grow(struct answers *answers) {
    if (answers->used == MOST_ANSWERS) {
        if (answers->missed++ < 2 * answers->entries)
            return -1;
        forget_texts(answers);
    }
    size_t count = answers->slots ? (size_t)1 << answers->bits : 0;
    if (answers->used < count - count / 4)
        return 0;
    unsigned bits = count ? answers->bits + 1 : LEAST_BITS;
    struct answer *more = PyMem_Calloc((size_t)1 << bits, sizeof *more);
    if (!more)
        return -1;
    for (size_t k = 0; k < count; k++)
        if (answers->slots[k].text)
            *slot_of(more, bits, answers->slots[k].key) = answers->slots[k];
    PyMem_Free(answers->slots);
    answers->slots = more;
    answers->bits = bits;
    return 0;
}

PyObject *known_answer(const struct answers *answers, uint64_t key) {
    return answers->slots ? Py_XNewRef(slot_of(answers->slots, answers->bits, key)->text) : NULL;
}

PyObject *new_answer(struct answers *answers, uint64_t key, kob_text text) {
    PyObject *string = PyUnicode_FromStringAndSize(text.at, (Py_ssize_t)text.len);
    if (!string || !was_asked(answers, key) || grow(answers) < 0)
        return string;
    *slot_of(answers->slots, answers->bits, key) = (struct answer){ key, Py_NewRef(string) };
    answers->used++;
    return string;
}

/* Return how many slots a table of recent answers has: those where an answer may begin to be looked for, and more, so
 * that NEAR slots follow each. */
static size_t room_of(unsigned bits) { return ((size_t)1 << bits) + NEAR - 1; }

static void drop(const struct recent *recent) {
    Py_XDECREF(recent->msgid);
    Py_XDECREF(recent->context);
    Py_XDECREF(recent->text);
}

/* Put an answer, with its references, into a free slot, or in place of the one whose turn it is. */
static void put_recent(struct recent *recents, unsigned bits, struct recent answer, unsigned turn) {
    struct recent *slots = recent_slots(recents, bits, answer.context, answer.msgid, answer.form);
    int index = 0;
    while (index < NEAR && slots[index].msgid)
        index++;
    struct recent *slot = &slots[index < NEAR ? (unsigned)index : turn % NEAR], displaced = *slot;
    *slot = answer;
    drop(&displaced);
}

/* Give the recent answers a table of 1 << bits slots and NEAR more, if there is memory for it. */
static void resize_recents(struct answers *answers, unsigned bits) {
    struct recent *more = PyMem_Calloc(room_of(bits), sizeof *more);
    answers->lacked = 0;
    if (!more)
        return;
    for (size_t k = 0; answers->recents && k < room_of(answers->recent_bits); k++)
        if (answers->recents[k].msgid)
            put_recent(more, bits, answers->recents[k], answers->turn++);
    PyMem_Free(answers->recents);
    answers->recents = more;
    answers->recent_bits = bits;
}

/* Return whether there is a table of recent answers. It grows first if it has lacked many. */
static int has_recents(struct answers *answers, int was_known) {
    size_t count = (size_t)1 << answers->recent_bits;
    if (!answers->recents)
        resize_recents(answers, LEAST_RECENT_BITS);
    else if (was_known && ++answers->lacked >= count / 4 && count < answers->entries)
        resize_recents(answers, answers->recent_bits + 1);
    return answers->recents != NULL;
}

void keep_recent(struct answers *answers, const struct recent *answer, int was_known) {
    if (!PyUnicode_CheckExact(answer->msgid) || (answer->context && !PyUnicode_CheckExact(answer->context)))
        return;
    if (!has_recents(answers, was_known))
        return;
    Py_INCREF(answer->msgid);
    Py_XINCREF(answer->context);
    Py_INCREF(answer->text);
    put_recent(answers->recents, answers->recent_bits, *answer, answers->turn++);
}

void forget(struct answers *answers) {
    forget_texts(answers);
    for (size_t k = 0; answers->recents && k < room_of(answers->recent_bits); k++)
        drop(&answers->recents[k]);
    PyMem_Free(answers->recents);
    PyMem_Free(answers->asked);
    answers->recents = NULL;
    answers->asked = NULL;
    answers->lacked = 0;
    answers->rule.state = NOT_LOOKED_AT;
}

/* Return a number of forms that no value of the plural rule reaches: nplurals, or 2 if there is no rule. */
static size_t most_forms(const kob_catalogue *held) {
    kob_text fields = kob_find(held, (kob_text){ NULL, 0 }, (kob_text){ "", 0 }, NULL);
    const char *count = fields.at ? strstr(fields.at, "nplurals=") : NULL;
    size_t most = count ? (size_t)strtoull(count + strlen("nplurals="), NULL, 10) : 0;
    return most < 2 ? 2 : most;
}

/* Look for an entry that has every form. */
static void find_witness(struct rule *rule, const kob_catalogue *held) {
    size_t most = most_forms(held);
    kob_entry entry;
    memset(rule->forms, UNKNOWN, sizeof rule->forms);
    rule->state = NO_PLURALS;
    for (size_t k = 0; kob_entry_at(held, k, &entry); k++) {
        if (entry.forms > 1)
            rule->state = NO_WITNESS;
        if (entry.forms >= most && entry.forms < UNKNOWN) {
            rule->state = HAS_WITNESS;
            rule->witness = k;
            return;
        }
    }
}

/* Return the number of the form that `n` takes, as the entry with every form shows it. */
static unsigned char form_of_witness(const struct rule *rule, const kob_catalogue *held, unsigned long long n) {
    kob_entry entry;
    if (!kob_entry_at(held, rule->witness, &entry))
        return UNKNOWN;
    kob_text text = kob_find(held, entry.context, entry.msgid, &n);
    for (size_t k = 0; k < entry.forms; k++)
        if (kob_form_at(held, rule->witness, k).at == text.at)
            return (unsigned char)k;
    return UNKNOWN;
}

unsigned char learn_form(struct rule *rule, const kob_catalogue *held, unsigned long long n) {
    if (rule->state == NOT_LOOKED_AT)
        find_witness(rule, held);
    if (rule->state != HAS_WITNESS || n >= SMALL)
        return rule->state == NO_PLURALS ? 0 : UNKNOWN;
    if (rule->forms[n] == UNKNOWN)
        rule->forms[n] = form_of_witness(rule, held, n);
    return rule->forms[n];
}
