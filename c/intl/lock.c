/* Locks, signals and forks. fork waits until no other thread has one of the locks, so a child finds them free; and for
 * at most a second until no other thread opens a conversion (begin_opening). It can't wait longer: that thread may wait
 * for one that called dlopen, and which forks now. */
#define _GNU_SOURCE
#include "intl.h"

#include <pthread.h>
#include <stdatomic.h>
#include <time.h>

#define PATIENCE 1 /* seconds */

static pthread_mutex_t lock = PTHREAD_MUTEX_INITIALIZER, changing = PTHREAD_MUTEX_INITIALIZER;

/* The handlers that fork calls in a thread that has all locks may call gettext. */
static _Thread_local int is_forking;

/* ---- quiet threads */

/* Signals that report a fault of the thread, and can't wait. */
static const int faults[] = { SIGSEGV, SIGBUS, SIGFPE, SIGILL, SIGTRAP, SIGSYS, SIGABRT };

static sigset_t others;
static pthread_once_t once = PTHREAD_ONCE_INIT;

static void find_others(void) {
    sigfillset(&others);
    for (size_t i = 0; i < sizeof faults / sizeof *faults; i++)
        sigdelset(&others, faults[i]);
}

void begin_quiet(struct quiet *before) {
    pthread_once(&once, find_others);
    pthread_sigmask(SIG_BLOCK, &others, &before->signals);
    pthread_setcancelstate(PTHREAD_CANCEL_DISABLE, &before->cancel_state);
}

void end_quiet(const struct quiet *before) {
    pthread_setcancelstate(before->cancel_state, NULL);
    pthread_sigmask(SIG_SETMASK, &before->signals, NULL);
}

/* ---- the locks */

void take_lock(void) {
    if (!is_forking)
        pthread_mutex_lock(&lock);
}

void leave_lock(void) {
    if (!is_forking)
        pthread_mutex_unlock(&lock);
}

void begin_change(void) {
    if (!is_forking)
        pthread_mutex_lock(&changing);
}

void end_change(void) {
    if (!is_forking)
        pthread_mutex_unlock(&changing);
}

/* ---- opening a conversion */

static pthread_mutex_t gate = PTHREAD_MUTEX_INITIALIZER; /* for these three */
static pthread_cond_t none_opens;
static unsigned opening;
static int is_stuck; /* a thread that opened one isn't in this child */

int begin_opening(void) {
    if (is_forking)
        return !is_stuck;
    pthread_mutex_lock(&gate);
    int may_open = !is_stuck;
    opening += (unsigned)may_open;
    pthread_mutex_unlock(&gate);
    return may_open;
}

void end_opening(void) {
    if (is_forking)
        return;
    pthread_mutex_lock(&gate);
    if (!--opening)
        pthread_cond_signal(&none_opens);
    pthread_mutex_unlock(&gate);
}

/* ---- forks */

static struct quiet before_fork; /* of the thread that has all locks */

static void begin_fork(void) {
    struct quiet before;
    struct timespec until;
    begin_quiet(&before);
    begin_change();
    clock_gettime(CLOCK_MONOTONIC, &until);
    until.tv_sec += PATIENCE;
    pthread_mutex_lock(&gate);
    while (opening && !pthread_cond_timedwait(&none_opens, &gate, &until)) {
    }
    take_lock();
    before_fork = before;
    is_forking = 1;
}

static void end_fork(void) {
    struct quiet before = before_fork;
    is_forking = 0;
    leave_lock();
    pthread_mutex_unlock(&gate);
    end_change();
    end_quiet(&before);
}

static void end_fork_in_child(void) {
    is_stuck |= opening > 0;
    opening = 0;
    end_fork();
}

/* The signals are found before there are threads and handlers, if possible. */
__attribute__((constructor)) static void hold_at_fork(void) {
    pthread_once(&once, find_others);
    pthread_condattr_t monotonic;
    pthread_condattr_init(&monotonic);
    pthread_condattr_setclock(&monotonic, CLOCK_MONOTONIC);
    pthread_cond_init(&none_opens, &monotonic);
    pthread_condattr_destroy(&monotonic);
    pthread_atfork(begin_fork, end_fork, end_fork_in_child);
}

/* ---- changes */

static atomic_ullong noted;

void note_change(void) { atomic_fetch_add(&noted, 1); }

unsigned long long changes(void) { return atomic_load_explicit(&noted, memory_order_acquire); }
