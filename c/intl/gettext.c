/* gettext and its relatives on top of libkobdzila, for programs that run with LD_PRELOAD=libkobdzila-intl.so. The C
 * library's own functions for look-ups aren't called, so that it is shown no catalogue. */
#define _POSIX_C_SOURCE 200809L
#include "intl.h"

#include <errno.h>
#include <locale.h>
#include <stdlib.h>
#include <string.h>
#include <unistd.h>

/* The result of a search: a text, or the catalogue whose text has to be converted first. Otherwise the program's own
 * string is used. */
struct found {
    const char *text;
    const struct catalogue *unconverted;
    struct codeset *to;
};

/* The catalogues whose text for a question can't be converted: the next one is searched. */
struct refused {
    const struct catalogue **at;
    size_t count;
};

static int is_refused(const struct refused *refused, const struct catalogue *c) {
    for (size_t i = 0; i < refused->count; i++)
        if (refused->at[i] == c)
            return 1;
    return 0;
}

/* False if memory ran out. */
static int refuse(struct refused *refused, const struct catalogue *c) {
    const struct catalogue **more = realloc(refused->at, (refused->count + 1) * sizeof *more);
    if (!more)
        return 0;
    more[refused->count++] = c;
    refused->at = more;
    return 1;
}

/* Answer by one catalogue. False if it has no answer. */
static int is_found_in(const struct catalogue *c, const struct question *q, const char *codeset, struct found *found) {
    const char *text = text_of(c, q);
    if (!text)
        return 0;
    *found = (struct found){ text, NULL, NULL };
    if (!c->is_coded && is_as_wanted(c, codeset))
        return 1;
    found->to = codeset_named(codeset);
    found->text = found->to ? converted(found->to, text) : NULL;
    found->unconverted = found->text ? NULL : c;
    return found->to != NULL;
}

/* Search the files up to the first that has an answer. */
static struct found found_in(const struct list *list, const struct question *q, const struct refused *refused) {
    struct found found = { NULL, NULL, NULL };
    const char *codeset = wanted_codeset(list->domain);
    unsigned long bindings = bindings_of(list->domain);
    for (size_t i = 0; i < list->count; i++) {
        struct file *file = list->files[i];
        if (standing_of(file, bindings) == TAKEN && !is_refused(refused, file->catalogue) &&
            is_found_in(file->catalogue, q, codeset, &found))
            return found;
    }
    return (struct found){ NULL, NULL, NULL };
}

/* Return a relative folder with the working directory in front; NULL if memory runs out or there is none. */
static char *absolute(const char *folder) {
    char *here = getcwd(NULL, 0);
    size_t len = here ? strlen(here) : 0;
    char *whole = here ? realloc(here, len + strlen(folder) + 2) : NULL;
    if (!whole) {
        free(here);
        return NULL;
    }
    whole[len] = '/';
    strcpy(whole + len + 1, folder);
    return whole;
}

/* Under the lock. */
static struct found find(const struct question *q, const char *category, const struct refused *refused) {
    struct found found = { NULL, NULL, NULL };
    const char *domain = q->domain ? q->domain : current_domain(), *languages = languages_for(q->category);
    const char *folder = languages ? folder_of(domain) : NULL;
    char *made = NULL;
    if (folder && *folder != '/')
        folder = made = absolute(folder);
    const struct list *list = folder ? list_for(folder, category, domain, languages) : NULL;
    if (list)
        found = found_in(list, q, refused);
    /* the working directory may change, and so may a locale that isn't known */
    if (!made && (list || !languages) && !found.unconverted && is_locale_known())
        remember(q, list);
    free(made);
    return found;
}

/* Whether to search again, since a text was converted or can't be. */
static int is_converted_or_refused(const struct question *q, const struct found *found, struct refused *refused) {
    enum conversion conversion = convert(found->unconverted, q->msgid, found->to);
    return conversion == CONVERTED || (conversion == NOT_CONVERTED && refuse(refused, found->unconverted));
}

/* Answer a question by state that is shared. No lock is held while a text is converted, so the search begins again. */
static const char *shared_text(const struct question *q) {
    const char *category = category_name(q->category);
    if (!category)
        return NULL;
    struct refused refused = { NULL, 0 };
    struct found found;
    struct quiet before;
    int cause = errno;
    begin_quiet(&before);
    know_default_folder();
    know_locale();
    do {
        take_lock();
        found = find(q, category, &refused);
        leave_lock();
    } while (found.unconverted && is_converted_or_refused(q, &found, &refused));
    free(refused.at);
    end_quiet(&before);
    errno = cause;
    return found.text;
}

static char *answer(const struct question *q) {
    const char *text;
    if (!q->msgid)
        return NULL;
    if (!recall(q, &text))
        text = shared_text(q);
    if (!text)
        text = !q->n || *q->n == 1 ? q->msgid : q->plural;
    return (char *)text;
}

SHOWN char *dcgettext(const char *domain, const char *msgid, int category) {
    return answer(&(struct question){ domain, msgid, NULL, NULL, category });
}

SHOWN char *dgettext(const char *domain, const char *msgid) { return dcgettext(domain, msgid, LC_MESSAGES); }

SHOWN char *gettext(const char *msgid) { return dcgettext(NULL, msgid, LC_MESSAGES); }

SHOWN char *dcngettext(const char *domain, const char *msgid, const char *plural, unsigned long n, int category) {
    return answer(&(struct question){ domain, msgid, plural, &n, category });
}

SHOWN char *dngettext(const char *domain, const char *msgid, const char *plural, unsigned long n) {
    return dcngettext(domain, msgid, plural, n, LC_MESSAGES);
}

SHOWN char *ngettext(const char *msgid, const char *plural, unsigned long n) {
    return dcngettext(NULL, msgid, plural, n, LC_MESSAGES);
}
