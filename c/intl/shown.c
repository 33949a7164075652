/* The live store with the catalogues of all files that were opened. Each is in the domain `mo`, and its locale is the
 * number of the file; so a list of numbers, such as `7:3`, is a list of languages. */
#define _POSIX_C_SOURCE 200809L
#include "intl.h"

#include <stdatomic.h>
#include <stdio.h>
#include <string.h>

static const char domain[] = "mo";
static kob_store *store;

/* ThreadSanitizer doesn't see how the proved library hands a set over, unless that was compiled for it as well. */
#ifdef __SANITIZE_THREAD__
static atomic_ulong handed_over;
static void hand_over(void) { atomic_fetch_add(&handed_over, 1); }
static void take_over(void) { atomic_load(&handed_over); }
#else
static void hand_over(void) {}
static void take_over(void) {}
#endif

/* The store is made when it is needed first. */
static kob_store *store_of_files(void) {
    if (!store)
        store = kob_store_new();
    return store;
}

int show(struct file *f) {
    static unsigned last;
    char number[12];
    if (f->is_shown)
        return 1;
    if (!f->number)
        f->number = ++last;
    snprintf(number, sizeof number, "%u", f->number);
    hand_over();
    f->is_shown = store_of_files() && kob_store_load(store, domain, number, f->catalogue->held, NULL) &&
                  kob_store_publish(store, NULL);
    return f->is_shown;
}

kob_reader *new_reader(void) { return store_of_files() ? kob_store_reader(store) : NULL; }

const char *text_in(kob_reader *reader, const char *numbers, const struct question *q) {
    const kob_text none = { NULL, 0 }, mo = { domain, sizeof domain - 1 };
    const kob_text files = { numbers, strlen(numbers) }, msgid = { q->msgid, strlen(q->msgid) };
    unsigned long long n = q->n ? *q->n : 0;
    const kob_set *set = kob_reader_enter(reader);
    take_over();
    return kob_set_find(set, mo, files, none, msgid, q->n ? &n : NULL).at;
}
