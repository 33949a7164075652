/* One thread asks c/intl/codesets.c again and again for a text that was never converted, while the other one keeps texts
 * that belong into the same slot of the table. What is found has to be nothing. It prints what is wrong, and nothing
 * else. tests/intl/intl_threads.sh runs it. */
#define _POSIX_C_SOURCE 200809L
#include "intl.h"

#include <pthread.h>
#include <sched.h>
#include <stdatomic.h>
#include <stdio.h>

enum { TRIALS = 8000, PLACES = 1 << 16, MANY = 1000 };

static char texts[PLACES];
static _Atomic(struct codeset *) current;
static atomic_int begun, kept, wrong; /* the number of a trial; how many went wrong */

static void *ask(void *unconverted) {
    struct codeset *last = NULL;
    for (int trial = 0; trial < TRIALS;) {
        struct codeset *codeset = atomic_load(&current);
        if (codeset == last) {
            sched_yield();
            continue;
        }
        last = codeset;
        trial++;
        atomic_store(&begun, trial);
        int is_found = 0;
        for (int count = 1; atomic_load(&kept) != trial; count++) {
            is_found |= converted(codeset, unconverted) != NULL;
            if (count % MANY == 0)
                sched_yield();
        }
        atomic_fetch_add(&wrong, is_found);
    }
    return NULL;
}

/* The slot of a text in a codeset's first table, which has 64. */
static unsigned slot_of(const char *text) { return (uint64_t)(uintptr_t)text * 0x9e3779b97f4a7c15u >> 20 & 63; }

int main(void) {
    const char *unconverted = texts, *other = texts, *apart = texts;
    do
        other++;
    while (slot_of(other) != slot_of(unconverted));
    while (slot_of(apart) == slot_of(unconverted))
        apart++;
    pthread_t thread;
    if (pthread_create(&thread, NULL, ask, (void *)unconverted))
        return 1;
    for (int trial = 1; trial <= TRIALS; trial++) {
        char name[12];
        snprintf(name, sizeof name, "%d", trial);
        struct codeset *codeset = codeset_named(name);
        if (!codeset || !keep_converted(codeset, apart, "apart"))
            return 1;
        atomic_store(&current, codeset);
        while (atomic_load(&begun) != trial)
            sched_yield();
        for (volatile int wait = 0; wait < trial % 97; wait++)
            continue;
        keep_converted(codeset, other, "other");
        atomic_store(&kept, trial);
    }
    pthread_join(thread, NULL);
    if (wrong)
        printf("in %d of %d trials a text was found as another one\n", wrong, TRIALS);
    return wrong != 0;
}
