/* The thread's locale: the one that it chose with uselocale, or the process's. What the process's locale is called is
 * copied at each change, since the next call of setlocale frees the names that the last one returned, and the C library
 * may wait in it for a thread that loads a module. */
#define _GNU_SOURCE
#include "intl.h"

#include <gnu/libc-version.h>
#include <langinfo.h>
#include <locale.h>
#include <stdatomic.h>
#include <stdlib.h>
#include <string.h>
#include <sys/auxv.h>

#define CATEGORIES (LC_IDENTIFICATION + 1)

const char *category_name(int category) {
    switch (category) {
    case LC_CTYPE: return "LC_CTYPE";
    case LC_NUMERIC: return "LC_NUMERIC";
    case LC_TIME: return "LC_TIME";
    case LC_COLLATE: return "LC_COLLATE";
    case LC_MONETARY: return "LC_MONETARY";
    case LC_MESSAGES: return "LC_MESSAGES";
    case LC_PAPER: return "LC_PAPER";
    case LC_NAME: return "LC_NAME";
    case LC_ADDRESS: return "LC_ADDRESS";
    case LC_TELEPHONE: return "LC_TELEPHONE";
    case LC_MEASUREMENT: return "LC_MEASUREMENT";
    case LC_IDENTIFICATION: return "LC_IDENTIFICATION";
    default: return NULL;
    }
}

/* The process's locale, by category, and its codeset. NULL if memory ran out: then it counts as the locale C, and is
 * copied once more at the next call. */
static char *names[CATEGORIES], *codeset;
static atomic_int is_copied;

/* Make the string a copy of the text, unless it is equal. Return what to free. */
static char *replace(char **string, const char *text) {
    if (*string && !strcmp(*string, text))
        return NULL;
    char *old = *string;
    *string = strdup(text);
    return old;
}

/* The codeset of the process's locale, which may not be that of this thread. It is never freed. */
static const char *codeset_of_process(void) {
    locale_t own = uselocale(LC_GLOBAL_LOCALE);
    const char *now = nl_langinfo(CODESET);
    uselocale(own);
    return now;
}

/* During a change, and without the lock. */
static void copy_locale(void) {
    char *old[CATEGORIES] = { NULL };
    int are_copied = 1;
    take_lock();
    for (int category = 0; category < CATEGORIES; category++)
        if (category_name(category)) {
            old[category] = replace(&names[category], c_library()->setlocale(category, NULL));
            are_copied &= names[category] != NULL;
        }
    char *old_codeset = replace(&codeset, codeset_of_process());
    are_copied &= codeset != NULL;
    note_change();
    leave_lock();
    for (int category = 0; category < CATEGORIES; category++)
        free(old[category]);
    free(old_codeset);
    atomic_store_explicit(&is_copied, are_copied, memory_order_release);
}

int is_locale_known(void) { return atomic_load_explicit(&is_copied, memory_order_acquire); }

void know_locale(void) {
    if (is_locale_known())
        return;
    begin_change();
    copy_locale();
    end_change();
}

static void copy_early(void) __attribute__((constructor));
static void copy_early(void) {
    struct quiet before;
    begin_quiet(&before);
    know_locale();
    end_quiet(&before);
}

/* A call that changes nothing takes no lock of the C library. */
SHOWN char *setlocale(int category, const char *locale) {
    if (!locale)
        return c_library()->setlocale(category, NULL);
    struct quiet before;
    begin_quiet(&before);
    begin_change();
    char *name = c_library()->setlocale(category, locale);
    copy_locale();
    end_change();
    end_quiet(&before);
    return name;
}

static locale_t own_locale(void) { return uselocale((locale_t)0); }

/* Whether a locale is that of the program's own texts: C, and as of glibc 2.39 also C with a codeset, as C.UTF-8. */
static int is_untranslated(const char *name) {
    return name[0] == 'C' && (!name[1] || (name[1] == '.' && strverscmp(gnu_get_libc_version(), "2.39") >= 0));
}

const char *languages_for(int category) {
    locale_t own = own_locale();
    const char *name = own == LC_GLOBAL_LOCALE ? names[category] : nl_langinfo_l(NL_LOCALE_NAME(category), own);
    if (!name || is_untranslated(name))
        return NULL;
    const char *list = getenv("LANGUAGE");
    return list && *list ? list : name;
}

const char *process_codeset(void) { return codeset ? codeset : ""; }

const char *locale_codeset(void) {
    locale_t own = own_locale();
    return own == LC_GLOBAL_LOCALE ? process_codeset() : nl_langinfo_l(CODESET, own);
}

int is_secure(void) { return getauxval(AT_SECURE) != 0; }
