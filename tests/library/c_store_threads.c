/* Publishes in a live store of libkobdzila while threads look up in it. It is linked with the wrappers below around
 * malloc and realloc (-Wl,--wrap=malloc and so on), and run by tests/library/c_store.sh and bench/live/soak.
 *
 *   c_store_threads one PUBLISHES [EACH]       one thread publishes two catalogues at once, PUBLISHES times; 16 look up
 *   c_store_threads several PUBLISHES [EACH]   four threads publish one catalogue each, PUBLISHES times; four look up
 *   c_store_threads stopped STOPS [EACH]       as `one`, until its publisher was stopped STOPS times, wherever it is
 *   c_store_threads long LOADS                 one thread publishes LOADS loads at once; meanwhile readers are made
 *
 * Each request for memory whose number is a multiple of EACH is refused, and what failed is done again. Each catalogue
 * has one text, the number of its publish. What the readers check: a version never falls, both texts are of one
 * publish, it is the publish that the version says, and it isn't older than one that they know of. A quarter of them
 * makes readers anew all the time, a quarter stays in its entries, and a quarter is given notices. Each fifth entry of
 * any of them ends with leaving. Signals stop all of them for some milliseconds, wherever they are. A publisher that is stopped goes on once each reader has entered: none
 * may wait for it.
 *
 * It prints what is wrong, and nothing else; with VERBOSE=1 also what was done. */
#define _GNU_SOURCE
#include "kobdzila.h"

#include <errno.h>
#include <malloc.h>
#include <pthread.h>
#include <signal.h>
#include <stdatomic.h>
#include <stdio.h>
#include <stdlib.h>
#include <string.h>
#include <time.h>
#include <unistd.h>

#define READERS 16
#define PUBLISHERS 4

static atomic_int wrong, ended;

static void fault(const char *what, unsigned long long got, unsigned long long wanted) {
    if (!atomic_exchange(&wrong, 1))
        printf("wrong: %s: %llu and %llu\n", what, got, wanted);
    atomic_store(&ended, 1);
}

static void pause_for(long nanoseconds) {
    struct timespec pause = { 0, nanoseconds };
    nanosleep(&pause, NULL);
}

/* ---- what the library asks of the C library */

static atomic_ulong requests;
static atomic_long blocks, bytes;
static unsigned long each;

void *__real_malloc(size_t len);
void *__real_realloc(void *old, size_t len);
void __real_free(void *block);

static atomic_int publishing;            /* whether the thread that publishes is in the middle of it */
static _Thread_local int is_the_publisher; /* whether this is that thread */

static int is_refused(void) {
    if (is_the_publisher)
        atomic_store(&publishing, 1);
    unsigned long number = atomic_fetch_add_explicit(&requests, 1, memory_order_relaxed) + 1;
    return each && number % each == 0;
}

static void count(void *block, long one) {
    if (block) {
        atomic_fetch_add_explicit(&blocks, one, memory_order_relaxed);
        atomic_fetch_add_explicit(&bytes, one * (long)malloc_usable_size(block), memory_order_relaxed);
    }
}

void *__wrap_malloc(size_t len) {
    void *block = is_refused() ? NULL : __real_malloc(len);
    count(block, 1);
    return block;
}

void *__wrap_realloc(void *old, size_t len) {
    if (is_refused())
        return NULL;
    count(old, -1);
    void *block = __real_realloc(old, len);
    count(block ? block : old, 1);
    return block;
}

void __wrap_free(void *block) {
    count(block, -1);
    __real_free(block);
}

/* ---- what is published */

static kob_store *store;
static atomic_ullong told; /* a version whose publish has returned */

static kob_catalogue *catalogue_of(unsigned long number) {
    char po[80];
    int len = snprintf(po, sizeof po, "msgid \"n\"\nmsgstr \"%010lu\"\n", number);
    for (;;) {
        kob_catalogue *c = kob_open_po(po, (size_t)len, 0, NULL);
        if (c)
            return c;
    }
}

static void load(const char *domain, const char *locale, unsigned long number) {
    kob_catalogue *c = catalogue_of(number);
    kob_refusal why;
    while (!kob_store_load(store, domain, locale, c, &why))
        if (!each || why.fault != KOB_MEMORY) {
            fault("a load is refused", why.fault, KOB_NO_FAULT);
            break;
        }
    kob_release(c);
}

static atomic_ulong refused;

/* Only memory can be refused here: far more readers would have to be in the middle of an entry for a busy store. */
static unsigned long long publish(void) {
    unsigned long long version = 0;
    while (!kob_store_publish(store, &version) && !atomic_load(&ended)) {
        atomic_fetch_add(&refused, 1);
        if (!each)
            fault("a publish is refused", kob_store_pending(store), 0);
    }
    unsigned long long before = atomic_load(&told);
    while (before < version && !atomic_compare_exchange_weak(&told, &before, version)) {
    }
    return version;
}

static unsigned long number_in(const kob_set *set, const char *domain, const char *locale) {
    return strtoul(kob_set_gettext(set, domain, locale, "n"), NULL, 10);
}

/* ---- threads that look up */

struct asking {
    pthread_t thread;
    int kind;
    kob_reader *reader;
    unsigned long long last; /* version */
    unsigned long entries, news, taken;
    _Atomic(kob_notice *) notice;
    atomic_ullong noticed; /* the version of the notice */
};
enum { PLAIN, ANEW, STAYING, NOTICED, KINDS };

static struct asking asking[READERS];
static int count_of_readers;
static atomic_int quiet, arrived;

static kob_reader *new_reader(void) {
    for (;;) {
        kob_reader *reader = kob_store_reader(store);
        if (reader || !each)
            return reader;
    }
}

static const kob_set *enter(struct asking *me, unsigned long long *least) {
    kob_notice *notice = me->kind == NOTICED ? atomic_exchange(&me->notice, NULL) : NULL;
    *least = notice ? atomic_load(&me->noticed) : atomic_load(&told);
    const kob_set *set = notice ? kob_reader_enter_after(me->reader, notice) : kob_reader_enter(me->reader);
    if (!set)
        fault("an entry has no set", 0, 1);
    me->taken += notice != NULL;
    kob_notice_free(notice);
    return set;
}

static void look(struct asking *me, const kob_set *set, unsigned long long version) {
    unsigned long a = number_in(set, "app", "a"), b = number_in(set, "app", "b");
    if (a != b)
        fault("half a publish", a, b);
    if (2ull * a != version)
        fault("the texts aren't those of the version", a, version);
    if (kob_set_version(set) != version || kob_reader_version(me->reader) != version)
        fault("the version of a set", kob_set_version(set), version);
}

/* A reader that has left keeps its version's number, and finds nothing. */
static void leave(struct asking *me, const kob_set *set, unsigned long long version) {
    kob_reader_leave(me->reader);
    if (kob_reader_version(me->reader) != version)
        fault("leaving changes the version", kob_reader_version(me->reader), version);
    if (number_in(set, "app", "a"))
        fault("a text of a set that was left", number_in(set, "app", "a"), 0);
}

static void ask_once(struct asking *me) {
    unsigned long long least;
    const kob_set *set = enter(me, &least);
    unsigned long long version = kob_reader_version(me->reader);
    if (version < me->last)
        fault("a version falls", version, me->last);
    if (version < least)
        fault("an entry is older than what is known", version, least);
    me->news += version != me->last;
    me->last = version;
    me->entries++;
    look(me, set, version);
    if (me->kind == STAYING && me->entries % 256 == 0) {
        pause_for(300000);
        look(me, set, version);
    }
    if (me->entries % 5 == 0)
        leave(me, set, version);
    if (me->kind == ANEW && me->entries % 64 == 0) {
        kob_reader_free(me->reader);
        me->reader = new_reader();
        if (kob_reader_version(me->reader) < version)
            fault("a new reader is older than what is known", kob_reader_version(me->reader), version);
    }
}

static void *ask(void *arg) {
    struct asking *me = arg;
    while (!atomic_load(&ended)) {
        ask_once(me);
        if (!atomic_load(&quiet))
            continue;
        ask_once(me);
        atomic_fetch_add(&arrived, 1);
        while (atomic_load(&quiet) && !atomic_load(&ended))
            pause_for(100000);
        atomic_fetch_sub(&arrived, 1);
    }
    return NULL;
}

/* ---- a thread that stops the others where they are */

static void stop_a_while(int signal) {
    int cause = errno;
    pause_for(1000000 * (signal == SIGUSR1 ? 1 : 5));
    errno = cause;
}

static void *stop_others(void *none) {
    for (unsigned i = 0; !atomic_load(&ended); i++) {
        pause_for(700000);
        if (!atomic_load(&quiet))
            pthread_kill(asking[i * 7 % (unsigned)count_of_readers].thread, i % 8 ? SIGUSR1 : SIGUSR2);
    }
    return none;
}

static void start(int readers, void *(*work)(void *)) {
    struct sigaction action = { .sa_handler = stop_a_while, .sa_flags = SA_RESTART };
    sigaction(SIGUSR1, &action, NULL);
    sigaction(SIGUSR2, &action, NULL);
    count_of_readers = readers;
    for (int i = 0; i < readers; i++) {
        asking[i].kind = i % KINDS;
        asking[i].reader = new_reader();
        pthread_create(&asking[i].thread, NULL, work, &asking[i]);
    }
}

static void end(pthread_t stopping) {
    atomic_store(&ended, 1);
    pthread_join(stopping, NULL);
    for (int i = 0; i < count_of_readers; i++) {
        pthread_join(asking[i].thread, NULL);
        kob_notice_free(atomic_exchange(&asking[i].notice, NULL));
        if (!asking[i].entries)
            fault("a reader never entered", 0, 1);
    }
}

/* ---- one thread publishes */

static unsigned long most_retained;

static void publish_two(unsigned long number) {
    load("app", "a", number);
    load("app", "b", number);
    unsigned long long version = publish();
    if (version != 2ull * number && !atomic_load(&ended))
        fault("a publish has another version", version, 2ull * number);
    struct asking *to = &asking[number % READERS];
    if (to->kind == NOTICED && !atomic_load(&to->notice)) {
        kob_notice *notice = kob_store_notice(store);
        atomic_store(&to->noticed, notice ? version : 0);
        atomic_store(&to->notice, notice);
    }
    size_t retained = kob_store_retained(store);
    most_retained = retained > most_retained ? retained : most_retained;
}

struct memory {
    long blocks, bytes;
};

/* The memory in use while all readers wait in one version, and two more were published since. */
static struct memory memory_now(unsigned long *number) {
    atomic_store(&quiet, 1);
    while (atomic_load(&arrived) < READERS && !atomic_load(&ended))
        pause_for(100000);
    for (int i = 0; i < 3; i++)
        publish_two(++*number);
    for (int i = 0; i < READERS; i++)
        kob_notice_free(atomic_exchange(&asking[i].notice, NULL));
    struct memory now = { atomic_load(&blocks), atomic_load(&bytes) };
    atomic_store(&quiet, 0);
    while (atomic_load(&arrived) > 0 && !atomic_load(&ended))
        pause_for(100000);
    return now;
}

static void one(unsigned long publishes) {
    pthread_t stopping;
    start(READERS, ask);
    pthread_create(&stopping, NULL, stop_others, NULL);
    unsigned long number = 0, first = publishes < 1000 ? publishes / 2 : 1000;
    while (number < first && !atomic_load(&ended))
        publish_two(++number);
    struct memory before = memory_now(&number);
    while (number < publishes && !atomic_load(&ended))
        publish_two(++number);
    struct memory after = memory_now(&number);
    if (after.blocks > before.blocks)
        fault("blocks in use", (unsigned long long)after.blocks, (unsigned long long)before.blocks);
    if (after.bytes > before.bytes + 65536)
        fault("bytes in use", (unsigned long long)after.bytes, (unsigned long long)before.bytes);
    if (most_retained > 2 * READERS) /* (a reader has one, and may be copying another one) */
        fault("sets are retained", most_retained, 2 * READERS);
    end(stopping);
    if (getenv("VERBOSE")) {
        unsigned long entries = 0, news = 0, taken = 0;
        for (int i = 0; i < READERS; i++) {
            entries += asking[i].entries;
            news += asking[i].news;
            taken += asking[i].taken;
        }
        printf("%lu publishes, %lu refused; %lu entries, %lu of them new, %lu after a notice; at most %lu sets "
               "retained; %ld blocks of %ld bytes after the first, %ld of %ld at the end\n",
               number, atomic_load(&refused), entries, news, taken, most_retained, before.blocks, before.bytes,
               after.blocks, after.bytes);
    }
}

/* ---- several threads publish */

static unsigned long publishes_of_each;
static atomic_ulong numbers[PUBLISHERS]; /* of each publisher, the number whose publish has returned */

static void *publish_own(void *which) {
    size_t me = (size_t)which;
    char domain[20];
    snprintf(domain, sizeof domain, "p%zu", me);
    for (unsigned long i = 1; i <= publishes_of_each && !atomic_load(&ended); i++) {
        load(domain, "a", i);
        unsigned long long version = publish();
        atomic_store(&numbers[me], i);
        if (version < i || kob_store_version(store) < version)
            fault("the version of several publishers", version, i);
        if (kob_store_pending(store) > PUBLISHERS)
            fault("loads are pending", kob_store_pending(store), PUBLISHERS);
    }
    return NULL;
}

static void *ask_several(void *arg) {
    struct asking *me = arg;
    unsigned long last[PUBLISHERS] = { 0 }, known[PUBLISHERS];
    while (!atomic_load(&ended)) {
        for (size_t i = 0; i < PUBLISHERS; i++)
            known[i] = atomic_load(&numbers[i]);
        kob_notice *notice = me->kind == NOTICED ? kob_store_notice(store) : NULL;
        const kob_set *set = notice ? kob_reader_enter_after(me->reader, notice) : kob_reader_enter(me->reader);
        kob_notice_free(notice);
        for (size_t i = 0; i < PUBLISHERS; i++) {
            char domain[20];
            snprintf(domain, sizeof domain, "p%zu", i);
            unsigned long number = number_in(set, domain, "a");
            if (number < last[i] || number < known[i])
                fault("the text of one of several publishers falls", number, known[i]);
            last[i] = number;
        }
        if (++me->entries == 1)
            atomic_fetch_add(&arrived, 1);
        if (me->entries % 5 == 0)
            kob_reader_leave(me->reader);
        if (me->entries % 64 == 0 && me->kind == ANEW) {
            kob_reader_free(me->reader);
            me->reader = new_reader();
        }
    }
    return NULL;
}

static void several(unsigned long publishes) {
    pthread_t publishing[PUBLISHERS], stopping;
    publishes_of_each = publishes;
    start(PUBLISHERS, ask_several);
    pthread_create(&stopping, NULL, stop_others, NULL);
    /* (where threads wait long for a processor, all publishes could be over before a reader has begun) */
    while (atomic_load(&arrived) < PUBLISHERS && !atomic_load(&ended))
        pause_for(100000);
    for (size_t i = 0; i < PUBLISHERS; i++)
        pthread_create(&publishing[i], NULL, publish_own, (void *)i);
    for (int i = 0; i < PUBLISHERS; i++)
        pthread_join(publishing[i], NULL);
    if (kob_store_version(store) != PUBLISHERS * publishes)
        fault("the version at the end", kob_store_version(store), PUBLISHERS * publishes);
    end(stopping);
}

/* ---- one thread publishes, and is stopped where it is */

#define PATIENCE (30 * SLOWER) /* seconds: how long the readers may take to enter */

static pthread_t publisher;
static unsigned long wanted_stops;
static atomic_ulong stops, past; /* how often the publisher was stopped, and how many of these stops are over */
static atomic_ulong entered;     /* the readers that entered since it was stopped last */
static atomic_int hindered;      /* whether some didn't */

static time_t second(void) {
    struct timespec now;
    clock_gettime(CLOCK_MONOTONIC, &now);
    return now.tv_sec;
}

/* In the publisher's thread, whatever it was doing. */
static void wait_for_entries(int signal) {
    int cause = errno;
    time_t last = second() + PATIENCE;
    (void)signal;
    atomic_store(&entered, 0);
    atomic_fetch_add(&stops, 1);
    while (second() <= last && atomic_load(&entered) < READERS && !atomic_load(&ended))
        pause_for(100000);
    if (atomic_load(&entered) < READERS && !atomic_exchange(&ended, 1))
        atomic_store(&hindered, 1);
    atomic_fetch_add(&past, 1);
    errno = cause;
}

static void *stop_publisher(void *none) {
    for (unsigned long i = 0; i < wanted_stops && !atomic_load(&ended); i++) {
        pause_for((long)(i * 7919 % 100000));
        pthread_kill(publisher, SIGUSR1);
        while (atomic_load(&past) <= i && !atomic_load(&ended))
            pause_for(20000);
    }
    atomic_store(&ended, 1);
    return none;
}

static void *ask_at_each_stop(void *arg) {
    struct asking *me = arg;
    for (unsigned long seen = 0; !atomic_load(&ended);) {
        unsigned long now = atomic_load(&stops);
        if (now == seen) {
            pause_for(20000);
            continue;
        }
        seen = now;
        ask_once(me);
        atomic_fetch_add(&entered, 1);
    }
    return NULL;
}

static void stopped(unsigned long times) {
    pthread_t stopping;
    publisher = pthread_self();
    wanted_stops = times;
    start(READERS, ask_at_each_stop);
    struct sigaction action = { .sa_handler = wait_for_entries, .sa_flags = SA_RESTART };
    sigaction(SIGUSR1, &action, NULL);
    pthread_create(&stopping, NULL, stop_publisher, NULL);
    unsigned long number = 0;
    while (!atomic_load(&ended))
        publish_two(++number);
    if (atomic_load(&hindered))
        fault("readers that entered while a publisher is stopped", atomic_load(&entered), READERS);
    end(stopping);
    if (getenv("VERBOSE"))
        printf("%lu publishes, stopped %lu times\n", number, atomic_load(&stops));
}

/* ---- readers that are made while a publish runs */

static void *publish_all(void *none) {
    is_the_publisher = 1;
    publish();
    is_the_publisher = 0;
    atomic_store(&publishing, 0);
    return none;
}

/* A reader that is made before a publish of many loads returns can't have waited for it. */
static void during_one(unsigned long loads) {
    kob_catalogue *c = catalogue_of(1);
    char locale[30];
    for (unsigned long i = 0; i < loads; i++) {
        snprintf(locale, sizeof locale, "l%lu", i);
        if (!kob_store_load(store, "app", locale, c, NULL))
            fault("a load is refused", i, 0);
    }
    kob_release(c);
    pthread_t thread;
    unsigned long made = 0;
    pthread_create(&thread, NULL, publish_all, NULL);
    while (!atomic_load(&publishing)) {
    }
    for (;;) {
        kob_reader *reader = kob_store_reader(store);
        unsigned long long version = kob_reader_version(reader);
        kob_reader_free(reader);
        if (version != 0 && version != loads)
            fault("a reader in half a publish", version, loads);
        if (!atomic_load(&publishing))
            break;
        made++;
    }
    pthread_join(thread, NULL);
    if (made < 10)
        fault("readers that were made while a publish ran", made, 10);
}

int main(int argc, char **argv) {
    if (argc < 3)
        return 2;
    unsigned long publishes = strtoul(argv[2], NULL, 10);
    store = kob_store_new();
    each = argc > 3 ? strtoul(argv[3], NULL, 10) : 0;
    if (!strcmp(argv[1], "one"))
        one(publishes);
    else if (!strcmp(argv[1], "several"))
        several(publishes);
    else if (!strcmp(argv[1], "long"))
        during_one(publishes);
    else
        stopped(publishes);
    each = 0;
    for (int i = 0; i < count_of_readers; i++)
        kob_reader_leave(asking[i].reader);
    if (kob_store_retained(store))
        fault("sets are retained though all readers left", kob_store_retained(store), 0);
    kob_store_free(store);
    for (int i = 0; i < count_of_readers; i++)
        kob_reader_free(asking[i].reader);
    if (atomic_load(&blocks))
        fault("blocks are left", (unsigned long long)atomic_load(&blocks), 0);
    return atomic_load(&wrong);
}
