/* Sets of catalogues, the C part: memory, reference counts and the files of installed catalogues. The look-ups are in
 * crates/kobdzila_c (exports.h); they are the same in a set that a reader lends. */
#include "held.h"

#include <stdio.h>

/* Allocate room for a set, with one reference. Return NULL if memory runs out. */
static kob_set *room_for_set(void) {
    kob_set *set = malloc(sizeof *set + kobdzila_set_size());
    if (set) {
        atomic_init(&set->holders, 1);
        set->owner = COUNTED;
    }
    return set;
}

kob_set *kob_set_new(void) {
    kob_set *set = room_for_set();
    if (set)
        kobdzila_set_new(held_set(set));
    return set;
}

kob_set *kob_set_with(const kob_set *set, const char *domain, const char *locale, const kob_catalogue *catalogue,
                      kob_refusal *why) {
    kob_text domain_text = text_of(domain), locale_text = text_of(locale);
    kob_set *more = room_for_set();
    if (!more)
        return refuse(why, KOB_MEMORY, 0);
    kobdzila_set_with(read_set(set), bytes_of(domain_text), domain_text.len, bytes_of(locale_text), locale_text.len,
                      read_catalogue(catalogue), held_set(more));
    enum kob_fault fault = (enum kob_fault)kobdzila_set_number(read_set(more), FAULT);
    refuse(why, fault, 0);
    if (fault == KOB_NO_FAULT)
        return more;
    kob_set_release(more);
    return NULL;
}

/* Whether the name may be part of a path: it is a name, and can't lead to another folder. */
static int is_file_name(const char *name) {
    kob_text text = text_of(name);
    return kobdzila_is_name(bytes_of(text), text.len) && strcmp(name, ".") && strcmp(name, "..");
}

kob_set *kob_set_open(const kob_set *set, const char *folder, const char *domain, const char *locale,
                      kob_refusal *why) {
    if (!is_file_name(domain) || !is_file_name(locale))
        return refuse(why, KOB_BAD_NAME, 0);
    size_t len = strlen(folder) + strlen(domain) + strlen(locale) + sizeof "//LC_MESSAGES/.mo";
    char *name = malloc(len);
    if (!name)
        return refuse(why, KOB_MEMORY, 0);
    snprintf(name, len, "%s/%s/LC_MESSAGES/%s.mo", folder, locale, domain);
    kob_catalogue *catalogue = kob_open_file(name, KOB_MO, 0, why);
    free_quietly(name);
    kob_set *more = catalogue ? kob_set_with(set, domain, locale, catalogue, why) : NULL;
    kob_release(catalogue);
    return more;
}

/* A set that a reader lends is the reader's: it has no references to count. */
kob_set *kob_set_retain(kob_set *set) {
    if (set->owner == COUNTED)
        add_holder(&set->holders);
    return set;
}

void kob_set_release(kob_set *set) {
    if (!set || set->owner != COUNTED || !was_last_holder(&set->holders))
        return;
    int cause = errno;
    kobdzila_set_close(held_set(set));
    free_quietly(set);
    errno = cause;
}

unsigned long long kob_set_version(const kob_set *set) {
    return kobdzila_set_number(read_set(set), VERSION);
}

static struct lent ask(const kob_set *set, kob_text domain, kob_text languages, kob_text context, kob_text msgid,
                       uint32_t call, uint64_t n) {
    struct lent out;
    kobdzila_set_answer(read_set(set), bytes_of(domain), domain.len, bytes_of(languages), languages.len,
                        bytes_of(context), context.len, bytes_of(msgid), msgid.len, call, n, &out);
    return out;
}

const char *kob_set_gettext(const kob_set *set, const char *domain, const char *languages, const char *msgid) {
    if (!msgid)
        return NULL;
    return found_or(ask(set, text_of(domain), text_of(languages), text_of(""), text_of(msgid), GETTEXT, 0), msgid);
}

const char *kob_set_pgettext(const kob_set *set, const char *domain, const char *languages, const char *context,
                             const char *msgid) {
    if (!msgid)
        return NULL;
    return found_or(ask(set, text_of(domain), text_of(languages), text_of(context), text_of(msgid),
                        in_context(context), 0), msgid);
}

const char *kob_set_ngettext(const kob_set *set, const char *domain, const char *languages, const char *msgid,
                             const char *plural, unsigned long long n) {
    if (!msgid)
        return NULL;
    return found_or(ask(set, text_of(domain), text_of(languages), text_of(""), text_of(msgid), WITH_NUMBER, n),
                    n == 1 ? msgid : plural);
}

const char *kob_set_npgettext(const kob_set *set, const char *domain, const char *languages, const char *context,
                              const char *msgid, const char *plural, unsigned long long n) {
    if (!msgid)
        return NULL;
    return found_or(ask(set, text_of(domain), text_of(languages), text_of(context), text_of(msgid),
                        in_context(context) | WITH_NUMBER, n), n == 1 ? msgid : plural);
}

kob_text kob_set_find(const kob_set *set, kob_text domain, kob_text languages, kob_text context, kob_text msgid,
                      const unsigned long long *n) {
    if (!msgid.at)
        return no_text;
    return found_text(ask(set, present(domain), present(languages), present(context), msgid, call_of(context, n),
                          number_of(n)));
}

/* ---- lists of languages that are looked at once */

kob_languages kob_set_languages(const kob_set *set, kob_text domain, kob_text languages) {
    struct places named;
    domain = present(domain);
    languages = present(languages);
    kobdzila_set_languages(read_set(set), bytes_of(domain), domain.len, bytes_of(languages), languages.len, &named);
    kob_languages list = { set, domain, languages, named.count, { 0 } };
    memcpy(list.places, named.at, sizeof list.places);
    return list;
}

/* The hint of a question in a list, for ask_hinted. */
static uint64_t hint_in(const kob_languages *list, const kob_question *q) {
    if (list->count > MOST_PLACES)
        return NO_HINT;
    kob_text context = present(q->context), msgid = present(q->msgid);
    return kobdzila_set_hint(read_set(list->set), list->places, list->count, bytes_of(context), context.len,
                             bytes_of(msgid), msgid.len, call_of(q->context, q->n));
}

/* The answer in a list; one with more catalogues than it has places for is looked at anew. */
static struct lent ask_hinted(const kob_languages *list, kob_text context, kob_text msgid, uint32_t call, uint64_t n,
                              uint64_t hint) {
    if (list->count > MOST_PLACES)
        return ask(list->set, list->domain, list->languages, context, msgid, call, n);
    struct lent out;
    kobdzila_set_answer_at(read_set(list->set), list->places, list->count, bytes_of(context), context.len,
                           bytes_of(msgid), msgid.len, call, n, hint, &out);
    return out;
}

static struct lent ask_in(const kob_languages *list, kob_text context, kob_text msgid, uint32_t call, uint64_t n) {
    return ask_hinted(list, context, msgid, call, n, NO_HINT);
}

const char *kob_languages_gettext(const kob_languages *list, const char *msgid) {
    return msgid ? found_or(ask_in(list, text_of(""), text_of(msgid), GETTEXT, 0), msgid) : NULL;
}

const char *kob_languages_pgettext(const kob_languages *list, const char *context, const char *msgid) {
    if (!msgid)
        return NULL;
    return found_or(ask_in(list, text_of(context), text_of(msgid), in_context(context), 0), msgid);
}

const char *kob_languages_ngettext(const kob_languages *list, const char *msgid, const char *plural,
                                   unsigned long long n) {
    if (!msgid)
        return NULL;
    return found_or(ask_in(list, text_of(""), text_of(msgid), WITH_NUMBER, n), n == 1 ? msgid : plural);
}

const char *kob_languages_npgettext(const kob_languages *list, const char *context, const char *msgid,
                                    const char *plural, unsigned long long n) {
    if (!msgid)
        return NULL;
    return found_or(ask_in(list, text_of(context), text_of(msgid), in_context(context) | WITH_NUMBER, n),
                    n == 1 ? msgid : plural);
}

static kob_text find_hinted(const kob_languages *list, const kob_question *q, uint64_t hint) {
    if (!q->msgid.at)
        return no_text;
    return found_text(ask_hinted(list, present(q->context), q->msgid, call_of(q->context, q->n), number_of(q->n),
                                 hint));
}

kob_text kob_languages_find(const kob_languages *list, kob_text context, kob_text msgid, const unsigned long long *n) {
    return find_hinted(list, &(kob_question){ context, msgid, n }, NO_HINT);
}

/* Without a hint for the first question the others ask for none: the list's first catalogue is small. */
void kob_languages_find_many(const kob_languages *list, const kob_question *questions, size_t count,
                             kob_text *answers) {
    uint64_t hints[BLOCK];
    for (size_t size; count; questions += size, answers += size, count -= size) {
        size = block_size(count);
        hints[0] = hint_in(list, questions);
        for (size_t i = 1; i < size; i++)
            hints[i] = hints[0] == NO_HINT ? NO_HINT : hint_in(list, &questions[i]);
        for (size_t i = 0; i < size; i++)
            answers[i] = find_hinted(list, &questions[i], hints[i]);
    }
}

void kob_set_find_many(const kob_set *set, kob_text domain, kob_text languages, const kob_question *questions,
                       size_t count, kob_text *answers) {
    kob_languages list = kob_set_languages(set, domain, languages);
    kob_languages_find_many(&list, questions, count, answers);
}
