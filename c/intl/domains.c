/* Text domains: the current one, and the folder and the codeset of each. The C library keeps these too, since some of
 * its own functions look messages up (argp), and every change is made there first. But the strings that it returns are
 * valid only until the next change, and asking it takes locks that nobody releases in a forked child, so copies are kept
 * here. */
#define _POSIX_C_SOURCE 200809L
#include "intl.h"

#include <stdatomic.h>
#include <stdlib.h>
#include <string.h>

enum binding { BOUND_FOLDER, BOUND_CODESET };
struct domain {
    struct named named;
    char *bound[2]; /* by enum binding; NULL if not bound */
    unsigned long bindings;
};

static struct named *domains;
static char *current; /* NULL for the default one, `messages` */
static _Atomic(const char *) default_folder; /* of domains that aren't bound */

/* It is looked up before there are threads, or at the first call. */
void know_default_folder(void) {
    if (!atomic_load_explicit(&default_folder, memory_order_acquire))
        atomic_store(&default_folder, c_library()->bindtextdomain("libkobdzila-intl", NULL));
}

__attribute__((constructor)) static void find_early(void) { know_default_folder(); }

/* Return what was bound to a domain; NULL if nothing was. */
static const char *bound_to(const char *domain, enum binding what) {
    const struct domain *d = (const struct domain *)find_named(domains, domain);
    return d ? d->bound[what] : NULL;
}

const char *current_domain(void) { return current ? current : "messages"; }

const char *folder_of(const char *domain) {
    const char *folder = bound_to(domain, BOUND_FOLDER);
    return !*domain ? NULL : folder ? folder : atomic_load(&default_folder);
}

const char *codeset_of(const char *domain) { return bound_to(domain, BOUND_CODESET); }

unsigned long bindings_of(const char *domain) {
    const struct domain *d = (const struct domain *)find_named(domains, domain);
    return d ? d->bindings : 0;
}

/* The codeset is the domain's own, else that of the variable OUTPUT_CHARSET, else that of the thread's locale. */
const char *wanted_codeset(const char *domain) {
    const char *own = codeset_of(domain), *codeset = own ? own : getenv("OUTPUT_CHARSET");
    return codeset && *codeset ? codeset : locale_codeset();
}

/* Replace the kept string by a copy of the new one, if the C library has made the change too. */
static char *change(char *made, char **place, char *copy) {
    char *old = made ? *place : copy;
    if (made)
        *place = copy;
    note_change();
    free(old);
    return made;
}

/* A call that changes nothing only asks the C library. If memory runs out, the C library isn't called either. */
SHOWN char *textdomain(const char *domain) {
    if (!domain)
        return c_library()->textdomain(NULL);
    struct quiet before;
    begin_quiet(&before);
    begin_change();
    char *copy = strdup(*domain ? domain : "messages"), *name = NULL;
    if (copy) {
        name = c_library()->textdomain(domain);
        take_lock();
        change(name, &current, copy);
        leave_lock();
    }
    end_change();
    end_quiet(&before);
    return name;
}

typedef char *bind_function(const char *domain, const char *string);

/* Call the C library's function, and keep a copy of what it binds to the domain. */
static char *bind_and_copy(bind_function *bind, const char *domain, enum binding what, const char *string) {
    char *copy = strdup(string);
    take_lock();
    struct domain *d = copy ? (struct domain *)find_or_add_named(&domains, domain, sizeof *d) : NULL;
    leave_lock();
    if (!d) {
        free(copy);
        return NULL;
    }
    char *bound = bind(domain, string);
    take_lock();
    d->bindings += what == BOUND_FOLDER;
    change(bound, &d->bound[what], copy);
    leave_lock();
    return bound;
}

static char *bind_string(bind_function *bind, const char *domain, enum binding what, const char *string) {
    struct quiet before;
    begin_quiet(&before);
    begin_change();
    int is_change = domain && *domain && string;
    char *bound = is_change ? bind_and_copy(bind, domain, what, string) : bind(domain, string);
    end_change();
    end_quiet(&before);
    return bound;
}

SHOWN char *bindtextdomain(const char *domain, const char *folder) {
    return bind_string(c_library()->bindtextdomain, domain, BOUND_FOLDER, folder);
}

SHOWN char *bind_textdomain_codeset(const char *domain, const char *codeset) {
    return bind_string(c_library()->bind_textdomain_codeset, domain, BOUND_CODESET, codeset);
}
