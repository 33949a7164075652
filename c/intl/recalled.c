/* What a thread remembers of its last questions, so that the next one like them needs no lock: the list of the files
 * to search, which are in the store. It is out of date once a locale or a text domain has changed; what may change
 * without a call (the variables LANGUAGE and OUTPUT_CHARSET, and the locale of a thread) is compared each time.
 *
 * Answers are strings of catalogues that are kept forever (files.c), so they outlast the reader's entry. */
#define _GNU_SOURCE
#include "intl.h"

#include <langinfo.h>
#include <locale.h>
#include <pthread.h>
#include <signal.h>
#include <stdatomic.h>
#include <stdio.h>
#include <stdlib.h>
#include <string.h>

#define MOST_RECALLED 8
#define DIGITS 11 /* of a number, and a colon */

struct recalled {
    unsigned long long changes; /* when it was remembered */
    int category;
    int is_global;      /* the locale was the process's, which changes only with a call of setlocale */
    int is_whole;       /* a message that isn't in these files has no translation */
    int is_any_codeset; /* since the domain has its own, or nothing is translated */
    int is_as_process;  /* the codeset is that of the process's locale */
    const char *codeset;     /* that texts are wanted in */
    const struct codeset *to; /* the same one, if the texts of the files have to be converted; otherwise NULL */
    const char *domain; /* NULL for the current one */
    const char *language, *locale, *numbers;
    char texts[];
};

struct thread {
    kob_reader *reader;
    struct recalled *recalled[MOST_RECALLED]; /* the most recently used first */
};

static _Thread_local struct thread *mine;
static _Thread_local volatile sig_atomic_t is_inside; /* a signal's handler may have interrupted what is below */

/* ---- the end of a thread */

static pthread_key_t key;
static int has_key;

static void forget(void *thread) {
    struct thread *t = thread;
    struct quiet before;
    begin_quiet(&before);
    mine = NULL;
    for (int i = 0; i < MOST_RECALLED; i++)
        free(t->recalled[i]);
    kob_reader_free(t->reader);
    free(t);
    end_quiet(&before);
}

__attribute__((constructor)) static void make_key(void) { has_key = !pthread_key_create(&key, forget); }

/* Return what this thread has; NULL if memory runs out. */
static struct thread *this_thread(void) {
    if (mine || !has_key)
        return mine;
    struct thread *t = calloc(1, sizeof *t);
    kob_reader *reader = t ? new_reader() : NULL;
    if (!reader || pthread_setspecific(key, t)) {
        kob_reader_free(reader);
        free(t);
        return NULL;
    }
    t->reader = reader;
    return mine = t;
}

/* ---- recalling */

static const char *variable(const char *name) {
    const char *value = getenv(name);
    return value ? value : "";
}

/* The locale that the thread has chosen with uselocale; LC_GLOBAL_LOCALE if none. */
static locale_t own_locale(void) { return uselocale((locale_t)0); }

static const char *name_of_locale(locale_t locale, int category) {
    return nl_langinfo_l(NL_LOCALE_NAME(category), locale);
}

static int is_in_codeset(const struct recalled *r, locale_t locale) {
    if (r->is_any_codeset)
        return 1;
    const char *codeset = variable("OUTPUT_CHARSET");
    if (*codeset)
        return !strcmp(r->codeset, codeset);
    return r->is_global ? r->is_as_process : !strcmp(r->codeset, nl_langinfo_l(CODESET, locale));
}

/* Whether it was remembered for questions like this one. */
static int is_for(const struct recalled *r, const struct question *q, locale_t locale) {
    if (r->category != q->category || r->is_global != (locale == LC_GLOBAL_LOCALE) || !r->domain != !q->domain ||
        (q->domain && strcmp(r->domain, q->domain)))
        return 0;
    return (r->is_global || !strcmp(r->locale, name_of_locale(locale, q->category))) &&
           !strcmp(r->language, variable("LANGUAGE")) && is_in_codeset(r, locale);
}

static struct recalled *find_recalled(struct thread *t, const struct question *q) {
    unsigned long long now = changes();
    locale_t locale = own_locale();
    for (int i = 0; i < MOST_RECALLED && t->recalled[i]; i++) {
        struct recalled *r = t->recalled[i];
        if (r->changes != now || !is_for(r, q, locale))
            continue;
        memmove(t->recalled + 1, t->recalled, (size_t)i * sizeof *t->recalled);
        return t->recalled[0] = r;
    }
    return NULL;
}

static int recall_in(struct thread *t, const struct question *q, const char **text) {
    const struct recalled *r = find_recalled(t, q);
    if (!r)
        return 0;
    *text = *r->numbers ? text_in(t->reader, r->numbers, q) : NULL;
    if (*text && r->to)
        return (*text = converted(r->to, *text)) != NULL;
    return *text || r->is_whole;
}

static int go_inside(void) {
    if (is_inside)
        return 0;
    is_inside = 1;
    atomic_signal_fence(memory_order_seq_cst);
    return 1;
}

static void go_outside(void) {
    atomic_signal_fence(memory_order_seq_cst);
    is_inside = 0;
}

/* (The header may be another one than in the store: text_of.) */
int recall(const struct question *q, const char **text) {
    if (!mine || !*q->msgid || !go_inside())
        return 0;
    int is_answered = recall_in(mine, q, text);
    go_outside();
    return is_answered;
}

/* ---- remembering */

/* Whether the file's texts are UTF-8 that isn't coded, and as they are wanted if no codeset is given, or to be converted. */
static int is_alike(const struct file *f, const char *codeset, const struct codeset *to) {
    const struct catalogue *c = f->catalogue;
    if (c->is_coded)
        return 0;
    return to ? c->has_charset && is_utf8(c->charset) : is_as_wanted(c, codeset);
}

/* Write the numbers of the files up to the first that wasn't opened, that is unlike these, or that isn't in the store.
 * Return whether these are all. */
static int put_numbers(char *to, const struct list *files, const struct recalled *r) {
    unsigned long bindings = bindings_of(files->domain);
    char *at = to;
    size_t i = 0;
    for (; i < files->count && is_known(files->files[i], bindings); i++) {
        struct file *f = files->files[i];
        if (f->standing != TAKEN)
            continue;
        if (!is_alike(f, r->codeset, r->to) || !show(f))
            break;
        at += sprintf(at, at == to ? "%u" : ":%u", f->number);
    }
    return i == files->count;
}

static char *put_text(char **at, const char *text) {
    char *copy = *at;
    *at = stpcpy(copy, text) + 1;
    return copy;
}

/* Note the codeset that texts are wanted in. False if it can't be remembered: if the domain has an empty codeset, that is
 * the locale's, and if memory ran out. */
static int note_codeset(struct recalled *r, const char *domain, char **at) {
    const char *own = codeset_of(domain), *wanted = wanted_codeset(domain);
    r->is_any_codeset = own != NULL;
    r->is_as_process = !strcmp(wanted, process_codeset());
    r->codeset = put_text(at, wanted);
    if (is_utf8(wanted))
        return !own || *own;
    r->to = codeset_named(wanted);
    return r->to && (!own || *own);
}

/* Make what is to be remembered; NULL if that isn't possible. `language` is what LANGUAGE is now. */
static struct recalled *new_recalled(const struct question *q, const struct list *files, locale_t locale,
                                     const char *language) {
    const char *domain = q->domain ? q->domain : current_domain();
    const char *name = locale == LC_GLOBAL_LOCALE ? "" : name_of_locale(locale, q->category);
    size_t most = DIGITS * (files ? files->count : 0) + strlen(domain) + strlen(language) + strlen(name) +
                  strlen(wanted_codeset(domain)) + 5;
    struct recalled *r = malloc(sizeof *r + most);
    if (!r)
        return NULL;
    char *at = r->texts;
    *r = (struct recalled){ .changes = changes(), .category = q->category, .is_global = locale == LC_GLOBAL_LOCALE,
                            .is_whole = 1, .is_any_codeset = 1 };
    if (files && !note_codeset(r, domain, &at)) {
        free(r);
        return NULL;
    }
    r->domain = q->domain ? put_text(&at, domain) : NULL;
    r->language = put_text(&at, language);
    r->locale = put_text(&at, name);
    r->numbers = at;
    *at = 0;
    if (files)
        r->is_whole = put_numbers(at, files, r);
    return r;
}

/* Put it first, in place of one that is out of date or for the same questions, or of the last one. */
static void keep(struct thread *t, struct recalled *r, const struct question *q, locale_t locale) {
    int i = 0;
    while (i < MOST_RECALLED - 1 && t->recalled[i] && t->recalled[i]->changes == r->changes &&
           !is_for(t->recalled[i], q, locale))
        i++;
    free(t->recalled[i]);
    memmove(t->recalled + 1, t->recalled, (size_t)i * sizeof *t->recalled);
    t->recalled[0] = r;
}

void remember(const struct question *q, const struct list *files) {
    locale_t locale = own_locale();
    if (!go_inside())
        return;
    struct thread *t = this_thread();
    /* a copy: what getenv returns may be gone after its next call (C standard, section 7.22.4.6), as it is with bash's */
    char *language = t ? strdup(variable("LANGUAGE")) : NULL;
    struct recalled *r = language ? new_recalled(q, files, locale, language) : NULL;
    free(language);
    if (r)
        keep(t, r, q, locale);
    go_outside();
}
