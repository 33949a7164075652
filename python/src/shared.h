/* What a Store shares with its snapshots. */
#ifndef SHARED_H
#define SHARED_H

#include "module.h"

#include <pthread.h>

/* The answers of a list of languages in a text domain, in one version. All snapshots of the three share them. */
struct texts {
    size_t holders;
    struct texts *next; /* those of the store's newest version are in a list */
    unsigned long long version;
    PyObject *domain, *languages; /* str */
    struct answers answers;
};

enum { MOST_IDLE = 64, /* the readers that are kept for the next snapshots */
       MOST_TEXTS = 32 /* the lists of languages whose answers are kept; a stranger's request may bring a new one */ };

/* The interpreter's lock guards it, but for the library's own store. */
struct shared {
    struct shared *next, *previous; /* all of the process are in a list */
    pthread_mutex_t calls;          /* held in each call that is made without the interpreter's lock */
    size_t holders;
    kob_store *store;
    kob_notice *notice; /* of the newest version that a publish returned, or NULL */
    unsigned long long noticed;
    kob_reader *idle[MOST_IDLE];
    size_t idle_count;
    struct texts *texts; /* the first of the list, the one that was asked for last */
    size_t texts_count;
};

/* What lies between them runs without the interpreter's lock, and no fork happens meanwhile. */
#define BEGIN_CALLS(shared)                                                                                            \
    Py_BEGIN_ALLOW_THREADS                                                                                             \
    pthread_mutex_lock(&(shared)->calls);
#define END_CALLS(shared)                                                                                              \
    pthread_mutex_unlock(&(shared)->calls);                                                                            \
    Py_END_ALLOW_THREADS

/* Return what the store has, without a reference. */
struct shared *shared_of(PyObject *store);

/* Drop a reference; NULL does nothing. */
void drop_shared(struct shared *shared);

/* Return a reader that nobody else has, or NULL if memory runs out. give_back ends its use: it leaves its version. */
kob_reader *take_reader(struct shared *shared);
void give_back(struct shared *shared, kob_reader *reader);

/* Enter a version that is no older than any that a publish returned. */
const kob_set *enter(const struct shared *shared, kob_reader *reader);

/* Return the answers for two str objects in a version, with a reference, or NULL if memory runs out. No exception is
 * set. */
struct texts *take_texts(struct shared *shared, unsigned long long version, PyObject *domain, PyObject *languages);

/* Drop a reference; NULL does nothing. */
void drop_texts(struct texts *texts);

#endif
